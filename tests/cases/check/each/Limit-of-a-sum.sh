#> rejected 11 Limit
#= 9
# Each number is at its limit, and u is past its own.
sed -e '9s/4718592/1125899906842624/g' -e '13s/16777216/17592186044416/' ../limit/stdout
