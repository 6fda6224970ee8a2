#> rejected 9 Box
#= 9
./blocks 2 | sed -e '9s/4718592$/4718593/' -e '14s/2/3/'
