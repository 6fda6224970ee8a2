#> rejected 11 Bound
#= 9
sed -e '11s/5344$/5343/' friction.dump
