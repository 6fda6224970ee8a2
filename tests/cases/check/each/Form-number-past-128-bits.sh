#> rejected 6 Form
#= 9
# 2^127.
sed -e '6s/0/170141183460469231731687303715884105728/' ../limit/stdout
