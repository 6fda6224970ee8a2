#> accepted 10
../../../crates/mj/out/mj run --model ../../../examples/fast.toml --steps 20 --dual yes || [ $? -eq 3 ]
