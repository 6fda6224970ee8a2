#> accepted 30
../../../crates/mj/out/mj run --model ../../../examples/pendulum.toml --steps 30 --dual yes --ball yes
