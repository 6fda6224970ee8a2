#> rejected 14 Form
#= 9
head -c -1 ../limit/stdout
