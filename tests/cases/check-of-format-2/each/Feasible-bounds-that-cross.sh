#> rejected 9 Feasible
#= 9
sed -e '9s/in -2097152 2097152/in 2097152 -2097152/' -e '13s/-2097152 2097152/2097152 -2097152/' friction.dump
