#> rejected 9 Feasible
#= 9
sed -e '9s/1 2097152 2097152 2097152 in/1 2097153 2097152 2097152 in/' friction.dump
