#!/usr/bin/env python3
"""Generated models, tapes and words, for as long as is asked; every answer is looked at.

usage: soak.py [--minutes N] [--seed N] [--mj FILE] [--other FILE]      (60 minutes, seed 1; a minute for a first look)

The programs are crates/mj/out/mj and mj.by-rattle beside it, which rt ci leaves, where none are named.
A case is a model by chance (models.py; a third of them damaged, some of `mj gen`) with its tapes, or words by chance.
Of each call it is asked:
- the status is one of the table, and the output goes with it; no signal, nothing on standard error,
  no new file, an end in time;
- the other build gives the same bytes and the same status;
- `run --dual yes` and `--ball yes` add lines, and `inverse` its own, and change none of the others, nor the status, but
  for a number out of range of the inverse dynamics;
- a batch of one to four tapes gives the summaries of the single runs' traces, with any number of workers;
- `check` accepts each dump, counts its blocks, and gives of a damaged one the verdict that verdict.py gives.
What the program has no word for (check, inverse, --ball) is left out, and said. A case that fails is kept in a folder,
which is named, and the soak goes on. At the end the figures are printed, as a table; the status is 1 where a case
failed. Seed and number of a case decide what it is, never the time."""
import argparse
import collections
import os
import random
import re
import shutil
import subprocess
import sys
import tempfile
import time

sys.dont_write_bytecode = True
import models  # noqa: E402
import verdict  # noqa: E402

TOP = os.path.join(os.path.dirname(os.path.abspath(__file__)), "..", "..")
IN_TIME = 600
SLOW_VERDICT = 200_000
EXTRA = re.compile(rb"^(?:dual|d|ball|inverse|x) .*\n", re.MULTILINE)
ENDS = {
    0: rb"",
    2: rb"refused words \d+\n",
    3: rb"",
    4: rb"refused model [A-Za-z]+( [^\n]+)?\n",
    5: rb"refused tape \d+ (TooLarge|Width \d+|BadNumber \d+ \d+|Short \d+)\n",
    6: rb"",
    9: rb"rejected \d+ (TooLarge|Form|Limit|Feasible|Cost|Bound|Box)\n",
}
EARLY = re.compile(rb"end out-of-range step=\d+ kind=(\w+) index=\d+\n")


class Failed(Exception):
    """What the program did that it must not."""


class Soak:
    def __init__(self, mj, other, folder):
        self.programs = [path for path in (mj, other) if path]
        self.folder = folder
        self.count = collections.Counter()
        self.statuses, self.kinds, self.reasons = (collections.Counter() for _ in range(3))
        self.knows = {
            "check": self.raw(mj, ["check", "--dual", "missing"]).returncode != 2,
            "inverse": self.raw(mj, ["inverse", "--model", "missing", "--steps", "1"]).returncode != 2,
            "ball": self.raw(mj, ["run", "--model", "missing", "--steps", "1", "--ball", "yes"]).returncode != 2,
        }

    def raw(self, program, words):
        try:
            return subprocess.run(
                [program, *words], capture_output=True, cwd=self.folder, stdin=subprocess.DEVNULL, timeout=IN_TIME
            )
        except subprocess.TimeoutExpired:
            raise Failed(f"no end in {IN_TIME} s: {words}") from None

    def call(self, *words):
        """The status and the output of both builds."""
        files = os.listdir(self.folder)
        first, *others = [self.raw(program, words) for program in self.programs]
        if os.listdir(self.folder) != files:
            raise Failed(f"a file is there that wasn't: {words}")
        self.count["calls"] += 1
        if any((run.returncode, run.stdout) != (first.returncode, first.stdout) for run in others):
            raise Failed(f"the builds differ: {words}")
        status, out = first.returncode, first.stdout
        if first.stderr or status not in ENDS:
            raise Failed(f"status {status}, standard error {first.stderr[:200]}: {words}")
        if status in (2, 4, 5, 9) and not re.fullmatch(ENDS[status], out) or (status == 6 and out):
            raise Failed(f"status {status} with the output {out[:200]}: {words}")
        self.statuses[status] += 1
        self.kinds.update(found[1].decode() for found in EARLY.finditer(out))
        if status == 9:
            self.reasons[out.split()[2].decode()] += 1
        return status, out

    def write(self, name, data):
        with open(os.path.join(self.folder, name), "wb") as file:
            file.write(data if isinstance(data, bytes) else data.encode())

    def words(self, chance):
        self.write("model.toml", '[[body]]\nname = "a"\ninertial = { mass = 1 }\n[[body.joint]]\ntype = "slide"\n')
        self.write("tape.csv", "")
        words = [chance.choice(models.WORDS) for _ in range(chance.randint(0, 9))]
        if chance.random() < 0.7:
            words[:1] = [chance.choice(("run", "gen", "bench", "batch", "check", "inverse"))]
        self.count["words"] += 1
        self.call(*words)

    def model(self, chance):
        steps = chance.choice((0, 1, 2, 5, 20, 60))
        model = models.Model(chance)
        text, tape = model.text, model.tape(steps)
        if chance.random() < 0.15:
            links = chance.randint(1, 12)
            text = self.call("gen", "--links", str(links), "--seed", str(chance.randrange(2**32)))[1].decode()
            tape = "".join(",".join(f"{chance.uniform(-1, 1):.6f}" for _ in range(links)) + "\n" for _ in range(steps))
        damage = chance.random()
        self.write("model.toml", models.damaged(text, chance) if damage < 0.2 else text)
        self.write("tape.csv", models.damaged(tape, chance) if 0.2 <= damage < 0.33 else tape)
        self.count["models"] += 1
        words = ["--model", "model.toml", "--steps", str(steps)] + ["--tape", "tape.csv"] * bool(tape)
        status, plain = self.call("run", *words)
        if status not in (0, 3):
            return
        self.compare_dual(chance, words, status, plain)
        if self.knows["ball"]:
            self.same(status, plain, self.call("run", *words, "--ball", "yes"), "--ball yes")
        if self.knows["inverse"]:
            self.compare_inverse(words, status, plain)
        if tape:
            self.compare_batch(chance, steps, plain)

    def same(self, status, plain, other, what):
        if (status, plain) != (other[0], EXTRA.sub(b"", other[1])):
            raise Failed(f"{what} changes other lines or the status")

    def compare_dual(self, chance, words, status, plain):
        answer = self.call("run", *words, "--dual", "yes")
        self.same(status, plain, answer, "--dual yes")
        dump = answer[1]
        if not self.knows["check"]:
            return
        if self.knows["ball"] and chance.random() < 0.5:
            _, dump = self.call("run", *words, "--dual", "yes", "--ball", "yes")
        self.write("run.dump", dump)
        found = self.call("check", "--dual", "run.dump")[1].decode()
        if found != f"accepted {count_blocks(dump)}\n":
            raise Failed(f"check of its own dump: {found}")
        self.count["dumps accepted"] += 1
        for _ in range(3 if len(dump) <= SLOW_VERDICT else 0):
            hurt = models.digit_changed(dump, chance)
            self.write("run.dump", hurt)
            found, wanted = self.call("check", "--dual", "run.dump")[1].decode(), verdict.verdict(hurt) + "\n"
            if found != wanted:
                raise Failed(f"check of a damaged dump: {found.strip()}, and by verdict.py {wanted.strip()}")
            self.count["damaged dumps"] += 1

    def compare_inverse(self, words, status, plain):
        answer = self.call("inverse", *words)
        common = EXTRA.sub(b"", answer[1])
        if common == plain:
            self.same(status, plain, answer, "inverse")
            return
        found = EARLY.search(common)
        if answer[0] != 3 or not found or not found[1].startswith(b"Inverse"):
            raise Failed("inverse changes other lines")
        if not plain.startswith(common[: found.start()]):
            raise Failed("inverse changes lines before its end")

    def compare_batch(self, chance, steps, plain):
        tapes = chance.randint(1, 4)
        words = ["batch", "--model", "model.toml", "--steps", str(steps)] + ["--tape", "tape.csv"] * tapes
        _, one = self.call(*words, "--workers", "1")
        _, more = self.call(*words, "--workers", str(chance.randint(2, 64)))
        if one != more:
            raise Failed("a batch depends on its workers")
        jobs = re.split(rb"^job \d+\n", one, flags=re.MULTILINE)[1:]
        if len(jobs) != tapes or len(set(jobs)) != 1:
            raise Failed("a batch of equal tapes has other jobs")
        wanted = summary(plain)
        if wanted and jobs[0].decode() != wanted:
            raise Failed("a batch's summary isn't that of the single run")
        self.count["batches"] += 1


def count_blocks(trace):
    return len(re.findall(rb"^step ", trace, re.MULTILINE))


def decimal(raw):
    size = abs(raw) * 10**9
    n = size // 2**32 + (2 * (size % 2**32) > 2**32)
    return f"{'-' if raw < 0 < n else ''}{n // 10**9}.{n % 10**9:09d}"


def summary(trace):
    """The summary of a trace; None where it has no block, and so no state."""
    lines = [line.split(" ") for line in trace.decode().splitlines()]
    named = collections.defaultdict(list)
    for word, *fields in lines:
        named[word].append(fields)
    done, end = len(named["step"]), " ".join(lines[-1])
    if not done:
        return None
    stops = collections.Counter(fields[0] for fields in named["stop"])
    rows, idle = (sum(int(fields[at]) for fields in named["rows"]) for at in (0, 2))
    told = [
        f"steps {done} of {lines[0][4].removeprefix('steps=')}",
        end,
        f"rows {rows - idle} idle {idle}",
        f"sweeps {sum(int(fields[1]) for fields in named['stop'] if len(fields) > 1)} tolerance {stops['tolerance']} "
        f"limit {stops['limit']} none {stops['none']}",
        f"gap {max(int(cost) - int(bound) for cost, bound in named['cost'])}",
        f"residual {max(int(fields[0]) for fields in named['residual'])}",
    ]
    told += [f"{name} " + " ".join(decimal(int(field)) for field in named[name][-1]) for name in "qv"]
    return "".join(line + "\n" for line in told)


def parsed():
    head, _, rest = __doc__.partition("\n\nusage: ")
    parser = argparse.ArgumentParser(
        description=head + rest[rest.index("\n") :], formatter_class=argparse.RawDescriptionHelpFormatter
    )
    parser.add_argument("--minutes", type=float, default=60, help="how long, 60 where it isn't given")
    parser.add_argument("--seed", type=int, default=1, help="of all chance, 1 where it isn't given")
    parser.add_argument("--mj", default=os.path.join(TOP, "crates", "mj", "out", "mj"), help="the program")
    parser.add_argument("--other", help="the other build; without it mj.by-rattle beside the first, if it is there")
    return parser.parse_args()


def main():
    wishes = parsed()
    mj = os.path.abspath(wishes.mj)
    other = os.path.abspath(wishes.other or mj + ".by-rattle")
    if not os.access(mj, os.X_OK):
        print(f"soak: {mj} isn't built: run rt ci", file=sys.stderr)
        return 2
    with tempfile.TemporaryDirectory() as folder:
        soak = Soak(mj, other if os.access(other, os.X_OK) else None, folder)
        if len(soak.programs) == 1:
            print("soak: there is no second build to compare with")
        for word in [word for word, is_known in soak.knows.items() if not is_known]:
            print(f"soak: the program doesn't know {word}, so it isn't tried")
        failed, case, end = 0, 0, time.monotonic() + 60 * wishes.minutes
        while time.monotonic() < end:
            case += 1
            chance = random.Random(f"{wishes.seed} {case}")
            try:
                soak.words(chance) if chance.random() < 0.3 else soak.model(chance)
            except Failed as fault:
                failed += 1
                kept = tempfile.mkdtemp(prefix=f"soak-{wishes.seed}-{case}-")
                shutil.copytree(folder, kept, dirs_exist_ok=True)
                print(f"soak: case {case}, kept in {kept}: {fault}", flush=True)
    tell(soak, case, failed)
    return 1 if failed or not case else 0


def tell(soak, cases, failed):
    print(f"| Cases | {cases}, {failed} failed |\n|---|---|")
    for name in ("words", "models", "calls", "dumps accepted", "damaged dumps", "batches"):
        print(f"| {name} | {soak.count[name]} |")
    for name, met in (("Statuses", soak.statuses), ("Kinds out of range", soak.kinds), ("Verdicts", soak.reasons)):
        print(f"| {name} | {', '.join(f'{key} {met[key]}' for key in sorted(met))} |")


if __name__ == "__main__":
    sys.exit(main())
