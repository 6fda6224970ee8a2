#> rejected 11 Limit
#= 9
# The gradient is -2^92.
sed -e '9s/4718592.*/0 0 0/' -e '13s/1 281474976710656 -38654705664/1 1 -72057594037927936/' ../limit/stdout
