#> rejected 9 Limit
#= 9
sed -e '9s/in -2097152/in -1125899906842625/' friction.dump
