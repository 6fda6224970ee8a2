#!/usr/bin/env python3
"""Makes figures.json: MuJoCo's accelerations and contacts of the models near.py compares.

usage: measure.py PROBE > figures.json      PROBE: tools/mjcf2mj/probe, which wants libmujoco"""
import json
import os
import subprocess
import sys
import tempfile
import tomllib

HERE = os.path.dirname(os.path.abspath(__file__))
TOP = os.path.join(HERE, "..", "..")
sys.path.insert(0, os.path.join(TOP, "tools", "mj2mjcf"))
import mj2mjcf

ACCELERATIONS = [
    f"tests/near/{name}" for name in ("chain", "mixed", "springs", "tendons", "welded", "heavy", "fast", "many")
]
ACCELERATIONS += ["examples/servo_arm", "examples/mujoco_humanoid"]
CONTACTS = [
    f"tests/near/{name}" for name in ("balls_on_plane", "capsules_on_plane", "balls", "ball_and_capsule", "capsules")
]


def model_of(name):
    with open(os.path.join(TOP, name + ".toml"), "rb") as file:
        return tomllib.load(file)


def probe(program, name):
    """What MuJoCo says of the model's start, under its tape's first record if it has one."""
    tape = os.path.join(TOP, name + ".csv")
    with tempfile.NamedTemporaryFile("w", suffix=".xml") as file:
        file.write(mj2mjcf.mjcf(model_of(name), explicit=True))
        file.flush()
        words = [program, file.name, "0"] + ([tape] if os.path.exists(tape) else [])
        return json.loads(subprocess.run(words, capture_output=True, text=True, check=True).stdout)


def bodies_of_geoms(model):
    """The body of each geom, in the order of numbering: 0 the world."""
    bodies = [0] * len(model.get("geom", []))
    for i, body in enumerate(model["body"]):
        bodies += [i + 1] * len(body.get("geom", []))
    return bodies


def contacts(program, name):
    start, bodies = probe(program, name), bodies_of_geoms(model_of(name))
    return {
        "rows": start["rows"],
        "contacts": [
            {
                "bodies": [bodies[c["geom1"]], bodies[c["geom2"]]],
                "distance": c["dist"],
                "normal": c["normal"],
                "point": c["pos"],
            }
            for c in start["contacts"]
        ],
    }


def main(program):
    version = None
    accelerations = {}
    for name in ACCELERATIONS:
        start = probe(program, name)
        if start["rows"]:
            sys.exit(f"{name} has rows")
        version, accelerations[name] = start["version"], start["qacc"]
    figures = {
        "MuJoCo": version,
        "accelerations": accelerations,
        "contacts": {name: contacts(program, name) for name in CONTACTS},
    }
    print(json.dumps(figures, indent=1))


if __name__ == "__main__":
    main(sys.argv[1])
