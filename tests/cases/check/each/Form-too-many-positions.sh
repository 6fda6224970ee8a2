#> rejected 1 Form
#= 9
sed -e '1s/nq=1/nq=129/' ../limit/stdout
