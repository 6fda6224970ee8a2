#> rejected 11 Bound
#= 9
sed -e '11s/768$/767/' ../limit/stdout
