#> rejected 9 Box
#= 9
sed -e '9s/4718592$/4718593/' ../limit/stdout
