#> rejected 9 Form
#= 9
sed -e '9s/row 1/row 2/' ../limit/stdout
