#> rejected 14 Form
#= 9
sed -e '1s/steps=1/steps=2/' ../limit/stdout
