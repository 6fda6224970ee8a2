#> rejected 11 Cost
#= 9
sed -e '11s/768 /767 /' ../limit/stdout
