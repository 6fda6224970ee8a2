#!/usr/bin/env python3
"""Each prefix of a dump, and each of its bytes changed, against the verdict that bench/soak/verdict.py gives.

usage: prefixes.py [--mj FILE] [--short] [DUMP ..]

A file may end in the middle of any line, and any byte may be hurt on its way: the program must give the verdict of the
rules, and end. Without a DUMP those of tests/cases are taken: a limit with a ball, joint friction, and an equality.
--short tries every 17th place. The programs are crates/mj/out/mj and mj.by-rattle beside it, which rt ci leaves, where
--mj names none. It prints a table, and ends with 1 where a verdict differs."""
import argparse
import os
import subprocess
import sys
import tempfile

TOP = os.path.join(os.path.dirname(os.path.abspath(__file__)), "..", "..")
sys.dont_write_bytecode = True
sys.path.insert(0, os.path.join(TOP, "bench", "soak"))
import verdict  # noqa: E402

CASES = os.path.join(TOP, "tests", "cases")
DUMPS = ("limit-with-ball/stdout", "check-of-format-2/friction.dump", "check-of-format-2/equality.dump")
OTHER = {ord("0"): b"1", ord("\n"): b" ", ord(" "): b"\n"}


def hurt(data, step):
    """The prefixes of the bytes, and the bytes with one changed: a digit, or whatever parts numbers and lines."""
    for at in range(0, len(data), step):
        yield data[:at]
        yield data[:at] + OTHER.get(data[at], b"0") + data[at + 1 :]
    yield data


def differences(programs, data, step, folder):
    """How many texts were tried, and those of which a program gives another verdict."""
    count, others = 0, []
    path = os.path.join(folder, "dump")
    for text in hurt(data, step):
        with open(path, "wb") as file:
            file.write(text)
        wanted = verdict.verdict(text) + "\n"
        status = 0 if wanted.startswith("accepted") else 9
        for program in programs:
            run = subprocess.run([program, "check", "--dual", path], capture_output=True, text=True, check=False)
            if (run.returncode, run.stdout, run.stderr) != (status, wanted, ""):
                others.append((len(text), wanted.strip(), run.returncode, run.stdout.strip()))
        count += 1
    return count, others


def main():
    parser = argparse.ArgumentParser(description=__doc__, formatter_class=argparse.RawDescriptionHelpFormatter)
    parser.add_argument("--mj", help="the program alone")
    parser.add_argument("--short", action="store_true", help="every 17th place")
    parser.add_argument("dumps", nargs="*", default=[os.path.join(CASES, name) for name in DUMPS])
    wishes = parser.parse_args()
    usual = os.path.join(TOP, "crates", "mj", "out", "mj")
    programs = [wishes.mj] if wishes.mj else [path for path in (usual, usual + ".by-rattle") if os.path.exists(path)]
    if not programs or not all(os.access(program, os.X_OK) for program in programs):
        print(f"prefixes: {wishes.mj or usual} isn't built: run rt ci", file=sys.stderr)
        return 2
    print("| Dump | Texts | Other verdicts |\n|---|---|---|")
    failed = False
    with tempfile.TemporaryDirectory() as folder:
        for name in wishes.dumps:
            with open(name, "rb") as file:
                count, others = differences(programs, file.read(), 17 if wishes.short else 1, folder)
            print(f"| {os.path.relpath(name, TOP)} | {count} | {len(others)} |", flush=True)
            for length, wanted, status, out in others[:5]:
                print(f"prefixes: {length} bytes: {wanted} wanted, and status {status}, {out}")
            failed = failed or bool(others)
    return 1 if failed else 0


if __name__ == "__main__":
    sys.exit(main())
