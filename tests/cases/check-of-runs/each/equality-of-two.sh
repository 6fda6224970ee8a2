#> accepted 5
../../../crates/mj/out/mj run --model ../equality-of-two/model.toml --steps 5 --dual yes --ball yes
