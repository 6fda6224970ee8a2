#> accepted 1
awk '{ print } /^cost/ { print "dual 0 1" }' ../idle-rows/stdout
