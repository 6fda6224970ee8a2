#> accepted 1
cat ../limit/stdout
