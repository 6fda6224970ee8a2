#!/usr/bin/env python3
"""Random MJCF through mjcf2mj and mj2mjcf: MuJoCo on the original and on what came of it.

usage: fuzz.py FIRST LAST [MJ]      seeds; MJ: the built program, which then reads each model too

A model is whole where mjcf2mj ends with 0. Then, with damping as it is and as MuJoCo's step takes it, in drawn
states: the accelerations without constraints agree within 1e-12 of the largest entry, the numbers of rows and contacts
are equal, and each row has its peer within 1e-9. Where something is lost, mjcf2mj says so and ends with 3; what the
generator put in that mj has nothing for is told by name; and the model written with --drop is one that MuJoCo and mj
read. The last line has the numbers; status 1 where a model failed."""
import collections
import contextlib
import io
import os
import re
import subprocess
import sys
import tempfile

import tomllib

import generate

HERE = os.path.dirname(os.path.abspath(__file__))
sys.path.insert(0, os.path.join(HERE, "..", "..", "mj2mjcf"))
import mj2mjcf

STATES = 3
CONVERTER = os.path.join(HERE, "..", "mjcf2mj")
COMPARE = os.path.join(HERE, "compare")
LINE = re.compile(r"smooth (\S+) rows (\d+) (\d+) contacts (\d+) (\d+) row (\S+) full (\S+)")


def run(words, **more):
    return subprocess.run(words, capture_output=True, text=True, **more)


class Failed(Exception):
    """What a model did that it must not."""


class Fuzz:
    def __init__(self, folder, mj):
        self.folder, self.mj = folder, mj
        self.count = collections.Counter()
        self.worst = collections.Counter()

    def path(self, name):
        return os.path.join(self.folder, name)

    def write(self, name, text):
        with open(self.path(name), "w", encoding="utf-8") as file:
            file.write(text)

    def back(self, text):
        """The model as MJCF again, as it is."""
        with contextlib.redirect_stderr(io.StringIO()):
            self.write("back.xml", mj2mjcf.mjcf(tomllib.loads(text), explicit=True))

    def compare(self, seed, kind):
        out = run([COMPARE, self.path("model.xml"), self.path("back.xml"), str(seed), str(STATES), kind])
        lines = [LINE.match(line) for line in out.stdout.splitlines()]
        if len(lines) != STATES or None in lines:
            raise Failed(f"compare: {out.stdout.strip()} {out.stderr.strip()}")
        for line in lines:
            self.judge(kind, line)

    def judge(self, kind, line):
        smooth, row, full = float(line[1]), float(line[6]), line[7]
        if smooth > 1e-12 or line[2] != line[3] or line[4] != line[5] or row > 1e-9:
            raise Failed(f"{kind}: {line[0]}")
        self.worst["smooth"] = max(self.worst["smooth"], smooth)
        self.worst["row"] = max(self.worst["row"], row)
        self.count["states"] += 1
        self.count["rows"] += int(line[2])
        self.count["contacts"] += int(line[4])
        if full != "-":
            self.count["full"] += 1
            self.count["full within 1e-9"] += float(full) <= 1e-9

    def ask_mj(self, text):
        """Whether the program accepts the model: its run ends, or a number leaves its range."""
        if not self.mj:
            return
        self.write("model.toml", text)
        out = run([self.mj, "run", "--model", self.path("model.toml"), "--steps", "2"])
        if out.returncode not in (0, 3):
            raise Failed(f"mj: status {out.returncode}: {out.stdout[:100].strip()}")
        self.count["run by mj"] += 1

    def one(self, seed):
        text, told = generate.model(seed)
        self.write("model.xml", text)
        for kind, words in (("implicit", []), ("explicit", ["--explicit"])):
            made = run([CONVERTER, *words, self.path("model.xml")])
            if made.returncode == 3:
                break
            if made.returncode or "lost: " in made.stderr:
                raise Failed(f"mjcf2mj: status {made.returncode}: {made.stderr.strip()}")
            self.back(made.stdout)
            self.compare(seed, kind)
            self.ask_mj(made.stdout)
        missing = [words for words in told if words not in made.stderr]
        if missing:
            raise Failed(f"not told: {missing}")
        if made.returncode == 0:
            self.count["whole"] += 1
            return
        if made.stdout:
            raise Failed("something is lost, and a text was written")
        self.count["lost something"] += 1
        made = run([CONVERTER, "--drop", self.path("model.xml")])
        if made.returncode:
            raise Failed(f"mjcf2mj --drop: status {made.returncode}: {made.stderr.strip()}")
        self.back(made.stdout)
        if run([os.path.join(HERE, "..", "probe"), self.path("back.xml"), "0"]).returncode:
            raise Failed("MuJoCo refuses the model written with --drop")
        self.ask_mj(made.stdout)


def main(first, last, mj=None):
    failed = 0
    with tempfile.TemporaryDirectory() as folder:
        fuzz = Fuzz(folder, mj)
        for seed in range(int(first), int(last) + 1):
            try:
                fuzz.one(seed)
            except Failed as fault:
                failed += 1
                print(f"seed {seed}: {fault}", flush=True)
    count = fuzz.count
    print(
        f"{count['states']} states of {count['whole']} whole models: accelerations within {fuzz.worst['smooth']:.1e}, "
        f"{count['rows']} rows and {count['contacts']} contacts in number, each row within {fuzz.worst['row']:.1e}; "
        f"with all forces {count['full within 1e-9']} of {count['full']} within 1e-9"
    )
    print(
        f"{count['whole']} whole, {count['lost something']} told what is lost, {failed} failed, "
        f"{count['run by mj']} runs of mj"
    )
    return 1 if failed else 0


if __name__ == "__main__":
    if len(sys.argv) not in (3, 4):
        print(__doc__.split("\n\n")[1], file=sys.stderr)
        sys.exit(2)
    sys.exit(main(*sys.argv[1:]))
