#> rejected 13 Limit
#= 9
sed -e '13s/281474976710656/0/' ../limit/stdout
