#> rejected 11 Limit
#= 9
# The gradient is 2^50, and no bound ends the box.
sed -e '9s/4194304.*/0 -2251799813685248 0 in - -/' -e '11s/.*/cost 0 -1267650600228229401496703205376/' -e '13s/1 281474976710656 -34359738368/1 1 16384/' equality.dump
