#> refused model LimitPassed motor
cat ../../../examples/slide.toml
for k in $(seq 65); do printf '[[motor]]\njoint = "z"\n'; done
