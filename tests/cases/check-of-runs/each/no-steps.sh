#> accepted 0
../../../crates/mj/out/mj run --model ../../../examples/slide.toml --steps 0 --dual yes
