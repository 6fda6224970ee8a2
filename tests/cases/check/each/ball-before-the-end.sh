#> rejected 14 Form
#= 9
sed -e '13a ball 39 549755813888' -e '14d' ../limit/stdout
