#> accepted 1
sed -e '1s/steps=1/steps=2/' -e '14s/.*/end out-of-range step=2 kind=Violation index=7/' ../limit/stdout
