#> rejected 9 Box
#= 9
sed -e '9s/4718592 4718592$/4718591 4718592/' ../limit/stdout
