#> rejected 6 Form
#= 9
sed '5q' ../limit/stdout
printf 'residual '
head -c 1000000 /dev/zero | tr '\0' 9
echo
