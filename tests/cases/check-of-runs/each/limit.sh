#> accepted 1
../../../crates/mj/out/mj run --model ../limit/model.toml --steps 1 --dual yes
