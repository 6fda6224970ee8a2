#> rejected 9 Box
#= 9
sed -e '9s/2097152 in/2097153 in/' friction.dump
