#> accepted 1
../../../crates/mj/out/mj run --model ../idle-rows/wheel.toml --steps 1 --dual yes
