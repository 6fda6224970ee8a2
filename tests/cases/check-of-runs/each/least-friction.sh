#> accepted 1
../../../crates/mj/out/mj run --model ../friction/least.toml --steps 1 --dual yes
