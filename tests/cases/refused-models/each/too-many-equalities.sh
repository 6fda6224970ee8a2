#> refused model LimitPassed equality
printf 'format = 2\n'
cat ../../../examples/slide.toml
for k in $(seq 65); do printf '[[equality]]\njoint1 = "z"\n'; done
