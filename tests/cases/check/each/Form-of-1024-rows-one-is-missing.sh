#> rejected 1032 Form
#= 9
awk '{ print } /^rows/ { for (i = 2; i <= 1024; i++) if (i != 1024) rows = rows "row " i " low 1 idle\n" } /^row / { printf "%s", rows }' \
    ../limit/stdout | sed '8s/.*/rows 1024 idle 1023/'
