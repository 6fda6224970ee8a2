#> rejected 14 Form
#= 9
sed -e '14s/.*/end out-of-range step=2 kind=Force index=1/' ../limit/stdout
