#> accepted 3
../../../crates/mj/out/mj run --model ../equality/model.toml --steps 3 --dual yes
