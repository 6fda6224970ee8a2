#> accepted 100
../../../crates/mj/out/mj run --model ../../../examples/humanoid.toml --steps 100 --dual yes
