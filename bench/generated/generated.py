"""Steps per second of `mj bench` and of MuJoCo on the same generated model and tape, in turns, in one run.
usage: generated.py MJ STEPS ROUNDS LINKS ..     (first: make -C tools/mjcf2mj, which wants libmujoco)
MuJoCo gets the model by tools/mj2mjcf, for projected Gauss-Seidel without warm start, and is timed by tools/mjcf2mj/probe.
The time of `mj bench` is that of STEPS steps less that of none; the tape is `sine_tape` of the seed."""
import json
import math
import os
import subprocess
import sys
import tempfile
import time

SEED = 7
TOOLS = os.path.join(os.path.dirname(os.path.abspath(__file__)), "..", "..", "tools")
TO_MJCF = [sys.executable, os.path.join(TOOLS, "mj2mjcf", "mj2mjcf.py"), "--explicit"]
PROBE = os.path.join(TOOLS, "mjcf2mj", "probe")


def seconds(words):
    start = time.perf_counter()
    subprocess.run(words, stdout=subprocess.DEVNULL, check=True)
    return time.perf_counter() - start


def sine(k, j):
    return f"{math.sin((k * j + SEED % 1024) / 64):.6f}"


def write(path, text):
    with open(path, "w", encoding="ascii") as file:
        file.write(text)


def main(mj, steps, rounds, *links):
    for n in map(int, links):
        with tempfile.TemporaryDirectory() as folder:
            model, xml, tape = (f"{folder}/{name}" for name in ("m.toml", "m.xml", "tape.csv"))
            gen = [mj, "gen", "--links", str(n), "--seed", str(SEED)]
            write(model, subprocess.run(gen, capture_output=True, text=True, check=True).stdout)
            write(xml, subprocess.run([*TO_MJCF, model], capture_output=True, text=True, check=True).stdout)
            write(tape, "".join(",".join(sine(k, j) for j in range(1, n + 1)) + "\n" for k in range(1, int(steps) + 1)))
            bench = [mj, "bench", "--links", str(n), "--seed", str(SEED), "--steps"]
            ours = none = theirs = math.inf
            for _ in range(int(rounds)):
                ours = min(ours, seconds(bench + [steps]))
                none = min(none, seconds(bench + ["0"]))
                peer = json.loads(subprocess.run([PROBE, xml, steps, tape], capture_output=True, text=True, check=True).stdout)
                theirs = min(theirs, peer["seconds"])
            rate, other = int(steps) / (ours - none), int(steps) / theirs
            print(f"{n} links: mj {rate:.0f} steps/s, MuJoCo {other:.0f}, ratio {rate / other:.2f}, {peer['rows_of_all_steps'] / int(steps):.1f} rows a step", flush=True)


main(*sys.argv[1:])
