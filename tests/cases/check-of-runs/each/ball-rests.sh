#> accepted 500
../../../crates/mj/out/mj run --model ../ball-rests/ball.toml --steps 500 --dual yes
