#> rejected 1 Form
#= 9
sed -e '1s/nv=1/nv=0/' ../limit/stdout
