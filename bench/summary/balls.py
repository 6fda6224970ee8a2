#!/usr/bin/env python3
"""What `mj run --ball yes` prints of a generated chain that hangs free, worked apart by the rules of docs/FORMATS.md.

    python3 bench/summary/balls.py LINKS SEED STEPS

The motion is that of summary.py, without a tape, as long as no link meets its limit or the plane: it stops there. A
ball is looked for as the rules say it, in integers of any size: the dense factor of the shifted mass matrix, the exact
errors, the largest row, the least radius. The wanted texts of tests/cases/balls-of-chains come from it; the two radii
of the line `radius` are left open (*)."""
import sys

import summary
from summary import LEAST_HEIGHT, LIMIT, H, ONE, bias, cross, dot, inertia, minus, nearest, plus, poses, settle, settled


def factor(m):
    """The pivots and L of a matrix, as a step factors its mass matrix; None where a number is out of range."""
    n = len(m)
    w = [[0] * n for _ in range(n)]
    l = [[ONE if i == k else 0 for i in range(n)] for k in range(n)]
    for k in reversed(range(n)):
        for i in range(k + 1):
            w[k][i] = m[k][i] - settle(sum(l[j][k] * w[j][i] for j in range(k + 1, n)))
        if not 1 << 10 <= w[k][k] <= 1 << 60:
            return None
        for i in range(k):
            l[k][i] = nearest(w[k][i] << 32, w[k][k])
            if abs(w[k][i]) > 1 << 60 or abs(l[k][i]) > 1 << 48:
                return None
    return [w[k][k] for k in range(n)], l


def least_part(m, k):
    """What y M y is at least over y y by the shift k, at scale 40; None where k isn't good."""
    n = len(m)
    shifted = [[m[i][j] - (i == j) * (1 << k) for j in range(n)] for i in range(n)]
    found = factor(shifted)
    if found is None:
        return None
    d, l = found
    largest = 0
    for i in range(n):
        row = 0
        for j in range(n):
            products = [d[r] * l[r][i] * l[r][j] for r in range(n)]
            error = (shifted[i][j] << 64) - sum(products)
            if max(map(abs, products + [error])) > 1 << 116:
                return None
            row += abs(error)
        largest = max(largest, row)
    low = ((1 << k + 64) - largest) >> 64
    return low if low >= 1 else None


def ball(m, a, s):
    """The line of the ball around a."""
    misses = [abs(dot(row, a) - (load << 40)) for row, load in zip(m, s)]
    for k in range(50, -1, -1) if max(misses) <= 1 << 116 else ():
        low = least_part(m, k)
        if low is not None:
            return f"ball {k} {low} {-(-sum(misses) // low)}"
    return "ball none"


def line(word, numbers):
    return " ".join([word, *map(str, numbers)])


def main(links, seed, steps):
    mass = list(summary.masses(links, seed))
    q, v = [0] * links, [0] * links
    print(f"trace 1 nq={links} nv={links} steps={steps}")
    for step in range(1, steps + 1):
        placed = list(poses(q))
        if min(p[1][2] for p in placed) < LEAST_HEIGHT or max(map(abs, q)) >= LIMIT:
            sys.exit("a link is near the plane or at its limit")
        ref = placed[0][3]
        bodies = [inertia(mass[i], p[0], minus(p[1], ref)) for i, p in enumerate(placed)]
        columns = [(axis, settled(cross(minus(at, ref), axis))) for _, _, axis, at in placed]
        m = summary.mass_matrix(bodies, columns)
        load = minus([settle(-summary.DAMPING * y) for y in v], bias(bodies, columns, v))
        a = summary.solve(m, load)
        v = plus(v, [settle(H * x) for x in a])
        q = plus(q, [settle(H * x) for x in v])
        residual = max(abs(dot(m[i], a) - (load[i] << 40)) for i in range(links))
        print(f"step {step}", line("q", q), line("v", v), line("a", a), f"residual {residual}", sep="\n")
        print("radius * *", "rows 0 idle 0", "stop none", "cost 0 0", ball(m, a, load), sep="\n")
    print("end done")


if __name__ == "__main__":
    if len(sys.argv) != 4:
        sys.exit(__doc__)
    main(*map(int, sys.argv[1:]))
