#> accepted 1
sed -e '13a ball 39 549755813888 0' friction.dump
