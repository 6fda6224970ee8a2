#> rejected 13 Form
#= 9
# A force that isn't feasible is found once the dual was read.
sed -e '9s/4718592/-1/' -e '13s/$/ 1/' ../limit/stdout
