#> rejected 15 Form
#= 9
sed -e '14a end done' ../limit/stdout
