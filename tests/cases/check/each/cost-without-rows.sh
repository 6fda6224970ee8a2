#> rejected 10 Form
#= 9
awk '{ print } /^cost/ { print "dual 0 1" }' ../slide/stdout | sed '10s/0 0/0 1/'
