#> rejected 13 Limit
#= 9
# 2^44 + 1.
sed -e '13s/16777216/17592186044417/' ../limit/stdout
