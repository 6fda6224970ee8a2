#> rejected 11 Limit
#= 9
# The gradient is -2^50, so the box ends at 2^51.
sed -e '9s/4718592.*/0 0 2251799813685248/' -e '11s/.*/cost 0 -1267650600228229401496703205376/' -e '13s/1 281474976710656 -38654705664/1 1 -16384/' ../limit/stdout
