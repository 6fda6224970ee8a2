#> accepted 1
sed -e '13a ball none' ../limit/stdout
