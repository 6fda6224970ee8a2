#> accepted 1
../../../crates/mj/out/mj run --model ../capsule-lies/capsule.toml --steps 1 --dual yes
