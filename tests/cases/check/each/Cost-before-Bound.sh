#> rejected 11 Cost
#= 9
sed -e '11s/.*/cost 1 1/' ../limit/stdout
