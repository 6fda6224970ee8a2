#> rejected 9 Form
#= 9
sed -e '9s/4718592 4718592 4718592/idle/' ../limit/stdout
