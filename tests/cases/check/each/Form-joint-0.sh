#> rejected 9 Form
#= 9
sed -e '9s/low 1/low 0/' ../limit/stdout
