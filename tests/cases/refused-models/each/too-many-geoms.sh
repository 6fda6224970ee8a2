#> refused model LimitPassed geom
cat ../../../examples/slide.toml
for k in $(seq 129); do printf '[[geom]]\ntype = "plane"\n'; done
