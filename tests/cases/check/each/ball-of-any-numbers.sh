#> accepted 1
# A ball is judged for its form alone.
sed -e '13a ball -7 0 -170141183460469231731687303715884105728' ../limit/stdout
