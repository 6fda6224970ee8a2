"""Compares the lines that main.rt prints with those of the block of a trace: of each row its number, its force and its box, the
stop, and cost and bound. usage: same.py BLOCK PRINTED"""
import sys

def told(name):
    words = [line.split() for line in open(name)]
    rows = [(w[1], *w[-3:]) for w in words if w and w[0] == "row" and w[-1] != "idle"]
    return rows + [tuple(w) for w in words if w and w[0] in ("stop", "cost")]

ours, theirs = told(sys.argv[2]), told(sys.argv[1])
other = sum(a != b for a, b in zip(ours, theirs)) + abs(len(ours) - len(theirs))
print(f"{len(theirs)} lines, {other} that differ")
