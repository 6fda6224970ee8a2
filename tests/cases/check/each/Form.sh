#> rejected 14 Form
#= 9
# The last line is missing.
sed -e '14d' ../limit/stdout
