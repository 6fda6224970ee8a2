#> accepted 150
../../../crates/mj/out/mj run --model ../../../examples/chain.toml --steps 150 --dual yes --tape ../../../examples/chain.csv
