#> rejected 9 Form
#= 9
sed -e '9s/ 4718592 / 01125899906842625 /' ../limit/stdout
