#> refused model LimitPassed body
cat ../../../examples/slide.toml
for k in $(seq 128); do printf '[[body]]\nname = "b"\n'; done
