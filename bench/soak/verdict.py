#!/usr/bin/env python3
"""The verdict of `mj check` anew, in Python's integers of any size: no part of the program has a hand in it.

usage: verdict.py DUMP ..

It prints for each file what `mj check --dual DUMP` must write. bench/soak compares both on whole and on damaged dumps.
The rules are those of docs/FORMATS.md, written here as they are read there: the form of a line by a regular
expression, the numbers of a block by formulas. It is slow, and meant to be."""
import math
import re
import sys

LARGEST_FILE = 67_108_864
KINDS = (
    "QuatNorm FramePos Arm GeomNorm Inertia Column Momentum Mass DofMotion BodyMotion Wrench Bias TendonLength "
    "TendonForce Applied Pivot Lower Accel Rows Violation Jacobian Reduced Regularizer Reference DualVector Force "
    "Reach Cost Shortfall Box Load Velocity Position ErrorBound"
).split()
NUMBER = r"(?:0|-?[1-9][0-9]*)"
COUNT = r"(?:0|[1-9][0-9]*)"
BOUND = rf"(?:-|{NUMBER})"
HEADER = re.compile(rf"trace ([12]) nq=({COUNT}) nv=({COUNT}) steps=({COUNT})\n")
ROWS = re.compile(rf"rows ({COUNT}) idle ({COUNT})\n")
SOURCE = rf"(?:(?:low|high|tlow|thigh|equality|friction) {COUNT}|contact {COUNT} [0-4])"
SOURCE_1 = SOURCE.replace("|equality|friction", "")
ROW = {
    1: re.compile(rf"row ({COUNT}) ({SOURCE_1}) (?:(idle)|({NUMBER}) ({NUMBER}) ({NUMBER}))\n"),
    2: re.compile(rf"row ({COUNT}) ({SOURCE}) (?:(idle)|({NUMBER}) ({NUMBER}) ({NUMBER}) in ({BOUND}) ({BOUND}))\n"),
}
STOP = re.compile(rf"stop (?:none|(?:tolerance|limit) ({COUNT}))\n")
COST = re.compile(rf"cost ({NUMBER}) ({NUMBER})\n")
BALL = re.compile(rf"ball (?:none|({NUMBER}) ({NUMBER}) ({NUMBER}))\n")
EARLY = re.compile(rf"end out-of-range step=({COUNT}) kind=(\w+) index=({COUNT})\n")


class Rejected(Exception):
    """A line of the dump, from 1, and why it is rejected."""


class Dump:
    """A dump while it is read; `line` is the number of the last line that was taken."""

    def __init__(self, text):
        self.lines = text.split("\n")
        rest = self.lines.pop()
        self.lines = [line + "\n" for line in self.lines] + ([rest] if rest else [])
        self.line = 0

    def is_over(self):
        return self.line == len(self.lines)

    def peek(self):
        return "" if self.is_over() else self.lines[self.line]

    def take(self, pattern):
        """The next line, which must be like the pattern, and its numbers ones that fit 128 bits."""
        text = self.peek()
        self.line += 1
        found = re.fullmatch(pattern, text)
        if not found or not all(-(2**127) <= number < 2**127 for number in numbers_of(text)):
            raise Rejected(self.line, "Form")
        return found

    def must(self, holds, reason="Form"):
        if not holds:
            raise Rejected(self.line, reason)


def numbers_of(text):
    """All numbers of a line; one of very many digits is as good as any that is too large."""
    return [int(word) if len(word) < 60 else 2**200 for word in re.findall(r"-?[0-9]+", text)]


def verdict(data):
    """The line that `mj check` writes of these bytes."""
    if len(data) > LARGEST_FILE:
        return "rejected 1 TooLarge"
    try:
        return f"accepted {blocks(Dump(data.decode('latin-1')))}"
    except Rejected as fault:
        return f"rejected {fault.args[0]} {fault.args[1]}"


def blocks(dump):
    form, nq, nv, steps = map(int, dump.take(HEADER).groups())
    dump.must(1 <= nq <= 128 and 1 <= nv <= 64 and steps <= 1_000_000)
    done = 0
    while done < steps and dump.peek() == f"step {done + 1}\n":
        done += 1
        block(dump, form, nq, nv)
    if dump.peek() == "end done\n":
        dump.line += 1
        dump.must(done == steps)
    else:
        step, kind, index = dump.take(EARLY).groups()
        dump.must(int(step) == done + 1 <= steps and kind in KINDS and int(index) >= 1)
    if not dump.is_over():
        dump.line += 1
        dump.must(False)
    return done


def block(dump, form, nq, nv):
    dump.line += 1
    for word, count in (("q", nq), ("v", nv), ("a", nv), ("residual", 1), ("radius", 2)):
        dump.take(word + rf" {NUMBER}" * count + "\n")
    rows = read_rows(dump, form)
    sweeps = dump.take(STOP)[1]
    dump.must((sweeps is None) == (not rows) and sweeps != "0")
    cost = [int(number) for number in dump.take(COST).groups()]
    at = dump.line
    dump.must(rows or cost == [0, 0])
    dump.take(f"dual {len(rows)} {nv}{' bounds' * (form == 2)}\n")
    for row in rows:
        read_dual(dump, row, form, nv)
    judge(rows, cost, at, nv)
    if dump.peek().startswith("ball"):
        dump.take(BALL)


class Row:
    """A row that isn't idle: its number, line, force, box, bounds (None where one is missing), and dual."""


def read_rows(dump, form):
    count, idle = map(int, dump.take(ROWS).groups())
    dump.must(count <= 1024 and idle <= count)
    rows, idles = [], 0
    for number in range(1, count + 1):
        found = dump.take(ROW[form])
        dump.must(int(found[1]) == number and found[2].split()[1] != "0")
        if found[3]:
            idles += 1
            dump.must(idles <= idle)
            continue
        row = Row()
        row.number, row.line = number, dump.line
        row.f, row.lo, row.hi = map(int, found.groups()[3:6])
        row.bounds = found.groups()[6:8] if form == 2 else ("0", "-")
        row.low, row.high = (None if bound == "-" else int(bound) for bound in row.bounds)
        rows.append(row)
        dump.must(len(rows) <= count - idle)
        near = (row.f, 50), (row.lo, 51), (row.hi, 51), (row.low or 0, 50), (row.high or 0, 50)
        dump.must(all(abs(value) <= 2**bits for value, bits in near), "Limit")
    return rows


def read_dual(dump, row, form, nv):
    bounds = " " + " ".join(row.bounds) if form == 2 else ""
    found = dump.take(rf"d {row.number} ({NUMBER}) ({NUMBER}){bounds}((?: {NUMBER}){{{nv}}})\n")
    row.r, row.b = int(found[1]), int(found[2])
    row.g = [int(number) for number in found[3].split()]
    dump.must(1 <= row.r <= 2**72 and abs(row.b) <= 2**56 and all(abs(g) <= 2**44 for g in row.g), "Limit")


def judge(rows, cost, at, nv):
    """The numbers of a block: Feasible, Limit, Cost, Bound, Box."""
    for row in rows:
        if row.low is not None and row.f < row.low or row.high is not None and row.f > row.high:
            raise Rejected(row.line, "Feasible")
    u = [sum(row.g[k] * row.f for row in rows) for k in range(nv)]
    squares, slopes = (
        running(row.r * row.f * row.f for row in rows),
        running(abs(2**37 * row.b * row.f) for row in rows),
    )
    within(at, (max(map(abs, u), default=0), 2**59), (squares, 2**124), (slopes, 2**124))
    for row in rows:
        row.slope = sum(g * x for g, x in zip(row.g, u)) + row.r * row.f + 2**36 * row.b
        row.short = shortfall(row)
    whole = sum(row.short for row in rows)
    within(at, (whole, 2**124))
    for row in rows:
        row.up, row.down = reach(row, row.slope, whole), reach(row, -row.slope, whole)
        within(at, (row.up if row.high is None else 0, 2**50), (row.down if row.low is None else 0, 2**50))
    exact = (
        sum(x * x for x in u) + sum(row.r * row.f**2 for row in rows) + 2**37 * sum(row.b * row.f for row in rows)
    )
    if cost[0] != exact:
        raise Rejected(at, "Cost")
    if cost[1] != exact - whole:
        raise Rejected(at, "Bound")
    for row in rows:
        lo, hi = row.f - row.down, row.f + row.up
        lo, hi = lo if row.low is None else max(lo, row.low), hi if row.high is None else min(hi, row.high)
        if (row.lo, row.hi) != (lo, hi):
            raise Rejected(row.line, "Box")


def running(sizes):
    """The largest of the sums of the first few: all are at least 0, so it is the whole."""
    return sum(sizes)


def within(at, *pairs):
    if any(value > limit for value, limit in pairs):
        raise Rejected(at, "Limit")


def shortfall(row):
    """How far the row's parabola can fall from the printed force."""
    if row.slope >= 0 and row.low is not None and row.slope >= row.r * (row.f - row.low):
        t = row.f - row.low
        return t * (2 * row.slope - row.r * t)
    if row.slope < 0 and row.high is not None and -row.slope >= row.r * (row.high - row.f):
        t = row.high - row.f
        return t * (-2 * row.slope - row.r * t)
    return abs(row.slope) * -(-abs(row.slope) // row.r)


def reach(row, slope, whole):
    """The least whole p from 0 on at which the parabola rises again and has risen by all other rows' shortfalls."""
    other = whole - row.short
    square = row.r * other + slope * slope
    root = math.isqrt(square)
    root += root * root < square
    return max(0, -((slope - root) // row.r), -(slope // row.r))


def main(paths):
    for path in paths:
        with open(path, "rb") as file:
            print(verdict(file.read(LARGEST_FILE + 1)))


if __name__ == "__main__":
    if sys.argv[1:2] in ([], ["-h"], ["--help"]):
        print(__doc__, file=sys.stdout if sys.argv[1:] else sys.stderr)
        sys.exit(0 if sys.argv[1:] else 2)
    main(sys.argv[1:])
