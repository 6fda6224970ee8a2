#> rejected 13 Form
#= 9
sed -e '13s/2097152/2097153/2' friction.dump
