#> accepted 1
cat ../limit-with-ball/stdout
