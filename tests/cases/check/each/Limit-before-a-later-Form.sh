#> rejected 9 Limit
#= 9
sed -e '9s/ 4718592 / 1125899906842625 /' -e '10d' ../limit/stdout
