#> rejected 9 Box
#= 9
sed -e '9s/4194304 in/4194305 in/' equality.dump
