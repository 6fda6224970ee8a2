#> rejected 1 Form
#= 9
sed 's/$/\r/' ../limit/stdout
