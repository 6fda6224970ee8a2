#> accepted 2
./blocks 2
