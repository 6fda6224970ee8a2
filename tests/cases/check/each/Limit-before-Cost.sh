#> rejected 11 Limit
#= 9
sed -e '9s/4718592/1125899906842624/g' -e '11s/.*/cost 1 1/' -e '13s/16777216/17592186044416/' ../limit/stdout
