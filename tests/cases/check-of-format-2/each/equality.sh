#> accepted 1
cat equality.dump
