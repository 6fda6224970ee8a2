#> rejected 9 Limit
#= 9
# 2^51 + 1.
sed -e '9s/4718592$/2251799813685249/' ../limit/stdout
