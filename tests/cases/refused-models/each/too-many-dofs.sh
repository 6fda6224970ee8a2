#> refused model LimitPassed dof
cat ../../../examples/slide.toml
for k in $(seq 64); do printf '[[body.joint]]\ntype = "slide"\n'; done
