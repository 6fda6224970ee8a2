#> rejected 14 Form
#= 9
sed -e '1s/steps=1/steps=3/' -e '14s/.*/end out-of-range step=3 kind=Force index=1/' ../limit/stdout
