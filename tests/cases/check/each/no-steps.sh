#> accepted 0
cat ../no-steps/stdout
