#> accepted 3
awk '{ print } /^cost/ { print "dual 0 1"; print "ball 39 549755813888 0" }' ../slide/stdout
