#> rejected 14 Form
#= 9
sed -e '13a inverse 0 0' ../limit/stdout
