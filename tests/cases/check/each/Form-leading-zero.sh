#> rejected 4 Form
#= 9
sed -e '4s/-3758096384/-03758096384/' ../limit/stdout
