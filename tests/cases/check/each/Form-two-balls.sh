#> rejected 15 Form
#= 9
sed -e '13a ball none\nball none' ../limit/stdout
