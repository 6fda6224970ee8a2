#> accepted 1
../../../crates/mj/out/mj run --model ../inverse-gap/each/one-sweep.toml --steps 1 --dual yes --ball yes
