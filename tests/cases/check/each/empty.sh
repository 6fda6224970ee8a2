#> rejected 1 Form
#= 9
:
