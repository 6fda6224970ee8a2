#> rejected 12 Form
#= 9
sed -e '12s/$/ bounds/' ../limit/stdout
