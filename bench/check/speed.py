#!/usr/bin/env python3
"""How fast `mj check` judges a dump, and with how much memory, beside `wc -l` and a plain reader in C (reader.c).

usage: speed.py [--mj FILE] [--links N] [--mib N] [--times N] [--dump FILE]

The dump is made of the blocks with rows of a run of a generated chain (30 links where none are named), one after another
and again from the first, up to 64 MiB: `check` accepts it, since no block depends on another. With --dump it is made of
that dump's blocks, and with --mib 1 it is a first look. Each program runs five times in turn, or as often as --times
says, and the least time of its own and of the system for it counts. It prints a table, and ends with 1 where the dump
isn't accepted."""
import argparse
import multiprocessing
import os
import re
import subprocess
import sys
import tempfile

HERE = os.path.dirname(os.path.abspath(__file__))
TOP = os.path.join(HERE, "..", "..")
STEPS = 400


def run_of_chain(mj, links, folder):
    """The dump of a run of a generated chain."""
    model = os.path.join(folder, "chain.toml")
    with open(model, "wb") as file:
        subprocess.run([mj, "gen", "--links", str(links), "--seed", "7"], stdout=file, check=True)
    words = [mj, "run", "--model", model, "--steps", str(STEPS), "--dual", "yes"]
    run = subprocess.run(words, capture_output=True, check=False)
    if run.returncode not in (0, 3):
        raise SystemExit(f"speed: the chain's run ended with status {run.returncode}")
    return run.stdout


def large(dump, size):
    """A dump of at most this many bytes, of the blocks of this one that have rows."""
    header, *blocks = re.split(rb"(?m)^step \d+\n", dump)
    blocks[-1] = blocks[-1][: blocks[-1].rindex(b"end ")]
    blocks = [block for block in blocks if b"\nrow " in block]
    if not blocks:
        raise SystemExit("speed: no block of the dump has a row")
    made, left = [], size - len(header) - 40
    while len(made) < 1_000_000:
        block = b"step %d\n" % (len(made) + 1) + blocks[len(made) % len(blocks)]
        left -= len(block)
        if left < 0:
            break
        made.append(block)
    return re.sub(rb"steps=\d+", b"steps=%d" % len(made), header) + b"".join(made) + b"end done\n", len(made)


def written(wishes, folder, path):
    """Writes the dump that is judged; its size in bytes and its number of blocks. It is called in a process
    of its own, since a program's memory is counted from what its parent holds as it starts."""
    if wishes.dump:
        with open(wishes.dump, "rb") as file:
            dump = file.read()
    else:
        dump = run_of_chain(wishes.mj, wishes.links, folder)
    text, blocks = large(dump, wishes.mib << 20)
    with open(path, "wb") as file:
        file.write(text)
    return len(text), blocks


def measured(words):
    """The processor time of a program's run, its largest memory in kB, and what it printed."""
    with tempfile.TemporaryFile() as out:
        child = subprocess.Popen(words, stdout=out)
        _, status, usage = os.wait4(child.pid, 0)
        child.returncode = os.waitstatus_to_exitcode(status)
        out.seek(0)
        return usage.ru_utime + usage.ru_stime, usage.ru_maxrss, out.read().decode()


def main():
    parser = argparse.ArgumentParser(description=__doc__, formatter_class=argparse.RawDescriptionHelpFormatter)
    parser.add_argument("--mj", default=os.path.join(TOP, "crates", "mj", "out", "mj"), help="the program")
    parser.add_argument("--links", type=int, default=30, help="of the chain, 30 where it isn't given")
    parser.add_argument("--mib", type=int, default=64, help="size of the dump, 64 MiB where it isn't given")
    parser.add_argument("--times", type=int, default=5, help="how often each program runs, 5 where it isn't given")
    parser.add_argument("--dump", help="whose blocks are taken")
    wishes = parser.parse_args()
    if not os.access(wishes.mj, os.X_OK):
        print(f"speed: {wishes.mj} isn't built: run rt ci", file=sys.stderr)
        return 2
    with tempfile.TemporaryDirectory() as folder:
        reader, path = os.path.join(folder, "reader"), os.path.join(folder, "dump")
        subprocess.run(["gcc", "-O2", "-o", reader, os.path.join(HERE, "reader.c")], check=True)
        with multiprocessing.Pool(1) as pool:
            size, blocks = pool.apply(written, (wishes, folder, path))
        programs = {"mj check": [wishes.mj, "check", "--dual", path], "wc -l": ["wc", "-l", path], "C": [reader, path]}
        runs = {name: [] for name in programs}
        for _ in range(wishes.times):
            for name, words in programs.items():
                runs[name].append(measured(words))
        return told(runs, size, blocks)


def told(runs, size, blocks):
    """Prints the table; the status."""
    rows = runs["mj check"][0][2]
    print(f"A dump of {size:,} bytes with {blocks:,} blocks: {rows.strip()}\n")
    print("| Program | Processor time, s | MB a second | Largest memory, MB |\n|---|---|---|---|")
    for name, made in runs.items():
        seconds = max(min(run[0] for run in made), 1e-6)
        print(f"| {name} | {seconds:.3f} | {size / 1e6 / seconds:.0f} | {max(run[1] for run in made) / 1024:.1f} |")
    return 0 if rows == f"accepted {blocks}\n" else 1


if __name__ == "__main__":
    sys.exit(main())
