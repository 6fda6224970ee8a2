#> rejected 15 Form
#= 9
cat ../limit/stdout
echo
