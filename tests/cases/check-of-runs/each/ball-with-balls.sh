#> accepted 60
../../../crates/mj/out/mj run --model ../ball/model.toml --steps 60 --dual yes --ball yes
