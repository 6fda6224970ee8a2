#> rejected 2 Form
#= 9
sed -e '1s/steps=1/steps=0/' ../limit/stdout
