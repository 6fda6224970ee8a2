#> rejected 9 Feasible
#= 9
sed -e '9s/4718592/-1/' ../limit/stdout
