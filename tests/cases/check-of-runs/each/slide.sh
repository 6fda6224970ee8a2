#> accepted 3
../../../crates/mj/out/mj run --model ../../../examples/slide.toml --steps 3 --dual yes
