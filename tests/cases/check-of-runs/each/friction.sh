#> accepted 1
../../../crates/mj/out/mj run --model ../friction/model.toml --steps 1 --dual yes
