#> rejected 10 Form
#= 9
sed -e '10s/tolerance 2/none/' ../limit/stdout
