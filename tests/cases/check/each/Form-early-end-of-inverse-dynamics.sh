#> rejected 14 Form
#= 9
sed -e '1s/steps=1/steps=2/' -e '14s/.*/end out-of-range step=2 kind=InverseRate index=1/' ../limit/stdout
