#> accepted 4
../../../crates/mj/out/mj run --model ../friction/model.toml --steps 4 --dual yes --ball yes
