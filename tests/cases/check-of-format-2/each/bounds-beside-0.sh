#> accepted 1
# No run has a low bound above 0; the box is one of forces within the bounds all the same.
sed -e '9s/in -2097152/in 1048576/' -e '13s/-2097152/1048576/' friction.dump
