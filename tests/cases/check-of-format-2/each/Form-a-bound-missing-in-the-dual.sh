#> rejected 13 Form
#= 9
sed -e '13s/-2097152/-/' friction.dump
