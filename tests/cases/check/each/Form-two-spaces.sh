#> rejected 7 Form
#= 9
sed -e '7s/0 0/0  0/' ../limit/stdout
