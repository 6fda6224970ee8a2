#> rejected 9 Limit
#= 9
sed -e '9s/2097152$/1125899906842625/' friction.dump
