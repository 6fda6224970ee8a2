#> rejected 8 Form
#= 9
sed -e '8s/1/1025/' ../limit/stdout
