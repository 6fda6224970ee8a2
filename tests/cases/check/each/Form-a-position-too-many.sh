#> rejected 3 Form
#= 9
sed -e '3s/$/ 0/' ../limit/stdout
