"""A batch with 1, 2 and 4 workers, beside 2 and 4 separate programs of one worker that share its tapes; least times.
usage: batch.py MJ MODEL TAPE STEPS ROUNDS"""
import math
import subprocess
import sys
import time

TAPES = 8


def batch(mj, model, tape, steps, tapes, workers):
    return [mj, "batch", "--model", model, "--steps", steps, "--workers", str(workers)] + ["--tape", tape] * tapes


def seconds(commands):
    start = time.perf_counter()
    started = [subprocess.Popen(words, stdout=subprocess.DEVNULL) for words in commands]
    if any(program.wait() for program in started):
        sys.exit("a batch didn't end with status 0")
    return time.perf_counter() - start


def main(mj, model, tape, steps, rounds):
    ways = {f"{n} workers": [batch(mj, model, tape, steps, TAPES, n)] for n in (1, 2, 4)}
    ways |= {f"{n} programs": [batch(mj, model, tape, steps, TAPES // n, 1)] * n for n in (2, 4)}
    least = dict.fromkeys(ways, math.inf)
    for _ in range(int(rounds)):
        for way, commands in ways.items():
            least[way] = min(least[way], seconds(commands))
    for way, spent in least.items():
        print(f"{way}: {spent:.4f} s, {least['1 workers'] / spent:.2f} times as fast")


main(*sys.argv[1:])
