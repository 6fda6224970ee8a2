#> rejected 11 Bound
#= 9
sed -e '9s/4718592$/4718593/' -e '11s/768$/767/' ../limit/stdout
