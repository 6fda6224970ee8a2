#> rejected 13 Limit
#= 9
# 2^72 + 1.
sed -e '13s/281474976710656/4722366482869645213697/' ../limit/stdout
