#> rejected 9 Form
#= 9
sed -e '9s/ in.*//' friction.dump
