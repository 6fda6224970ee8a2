#> rejected 9 Form
#= 9
sed -e '9s/low 1/contact 1 5/' ../limit/stdout
