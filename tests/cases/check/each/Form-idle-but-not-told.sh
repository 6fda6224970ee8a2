#> rejected 9 Form
#= 9
sed -e '8s/idle 0/idle 1/' ../limit/stdout
