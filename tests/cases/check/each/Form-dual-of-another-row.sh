#> rejected 13 Form
#= 9
sed -e '13s/d 1/d 2/' ../limit/stdout
