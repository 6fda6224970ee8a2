#> accepted 1
cat friction.dump
