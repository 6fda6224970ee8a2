#> accepted 40
../../../crates/mj/out/mj run --model ../../../examples/mujoco_humanoid.toml --steps 40 --dual yes
