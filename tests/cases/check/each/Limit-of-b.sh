#> rejected 13 Limit
#= 9
# -2^56 - 1.
sed -e '13s/-38654705664/-72057594037927937/' ../limit/stdout
