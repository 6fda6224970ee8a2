#> rejected 21 Box
#= 9
# The first block is right.
./blocks 2 | sed '21s/4718592$/4718593/'
