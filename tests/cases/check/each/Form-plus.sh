#> rejected 6 Form
#= 9
sed -e '6s/0/+0/' ../limit/stdout
