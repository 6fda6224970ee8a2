#> rejected 9 Limit
#= 9
# 2^50 + 1.
sed -e '9s/ 4718592 / 1125899906842625 /' ../limit/stdout
