#> accepted 70
../../../crates/mj/out/mj run --model ../../../examples/humanoid.toml --steps 70 --dual yes --ball yes
