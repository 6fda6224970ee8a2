#> rejected 12 Form
#= 9
sed -e '12,13d' ../limit/stdout
