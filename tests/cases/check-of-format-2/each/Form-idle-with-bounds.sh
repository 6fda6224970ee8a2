#> rejected 9 Form
#= 9
sed -e '8s/idle 0/idle 1/' -e '9s/1 2097152 2097152 2097152/1 idle/' friction.dump
