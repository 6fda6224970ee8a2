#> rejected 9 Feasible
#= 9
sed -e '9s/4718592/-1125899906842624/' -e '13s/16777216/17592186044416/' ../limit/stdout
