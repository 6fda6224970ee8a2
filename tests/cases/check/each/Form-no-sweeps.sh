#> rejected 10 Form
#= 9
sed -e '10s/tolerance 2/tolerance 0/' ../limit/stdout
