#> rejected 14 Form
#= 9
sed -e '13a ball 39 549755813888 none' ../limit/stdout
