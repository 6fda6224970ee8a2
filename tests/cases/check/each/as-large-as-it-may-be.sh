#> rejected 1 Form
#= 9
head -c 67108864 /dev/zero
