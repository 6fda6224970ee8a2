#> rejected 8 Form
#= 9
sed -e '8s/idle 0/idle 2/' ../limit/stdout
