#> rejected 1 Form
#= 9
sed -e '1s/trace 1/trace 3/' ../limit/stdout
