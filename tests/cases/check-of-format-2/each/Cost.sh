#> rejected 11 Cost
#= 9
sed -e '11s/3792 /3793 /' equality.dump
