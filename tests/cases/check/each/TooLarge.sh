#> rejected 1 TooLarge
#= 9
head -c 67108865 /dev/zero
