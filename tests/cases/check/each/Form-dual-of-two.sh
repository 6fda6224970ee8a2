#> rejected 12 Form
#= 9
sed -e '12s/dual 1/dual 2/' ../limit/stdout
