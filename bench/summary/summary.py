"""What `mj bench` prints, worked apart by the rules of docs/DEFINITIONS.md in whole numbers of any size.

    python3 bench/summary/summary.py LINKS SEED STEPS

A chain of hinges under its generated tape, as long as no link meets its limit or the plane: it stops
there. The wanted texts of tests/cases/bench come from it. Numbers are raw: lengths, angles, velocities and
forces in units of 2^-32, masses and inertias of 2^-40.
"""
import sys
from math import isqrt

ONE = 1 << 32
QUARTER_TURN = 0x3243F6A8885A308D  # at 2^-61
ZERO = (0, 0, 0)


def nearest(n, d):
    """The whole number nearest to n / d, on a tie the one nearer to zero."""
    size, rest = divmod(abs(n), d)
    return (size + (2 * rest > d)) * (-1 if n < 0 else 1)


def settle(n):
    return nearest(n, ONE)


def numeral(text, scale):
    whole, _, rest = text.lstrip("-").partition(".")
    size = nearest(int(whole + rest) << scale, 10 ** len(rest))
    return -size if text.startswith("-") else size


def decimal(raw, places):
    n = nearest(abs(raw) * 10**places, ONE)
    digits = "%0*d" % (places + 1, n)
    return ("-" if raw < 0 < n else "") + digits[:-places] + "." + digits[-places:]


def sin_cos(angle):
    k = nearest(angle << 29, QUARTER_TURN)
    t = nearest((angle << 29) - k * QUARTER_TURN, 2)
    z = nearest(t * t, 1 << 60)
    sines, cosines = [t], [1 << 60]
    for n in range(1, 9):
        sines.append(-nearest(sines[-1] * z, (2 * n) * (2 * n + 1) << 60))
        cosines.append(-nearest(cosines[-1] * z, (2 * n - 1) * (2 * n) << 60))
    s, c = nearest(sum(sines), 1 << 28), nearest(sum(cosines), 1 << 28)
    return [(s, c), (c, -s), (-s, -c), (-c, s)][k % 4]


# ---- vectors, quaternions, spatial vectors (angular, linear)


def plus(a, b):
    return tuple(x + y for x, y in zip(a, b))


def minus(a, b):
    return tuple(x - y for x, y in zip(a, b))


def times(a, x):
    return tuple(y * x for y in a)


def dot(a, b):
    return sum(x * y for x, y in zip(a, b))


def cross(a, b):
    return (a[1] * b[2] - a[2] * b[1], a[2] * b[0] - a[0] * b[2], a[0] * b[1] - a[1] * b[0])


def settled(a):
    return tuple(map(settle, a))


def matrix(q):
    w, x, y, z = q
    unit = ONE * ONE
    rows = (
        (unit - 2 * (y * y + z * z), 2 * (x * y - w * z), 2 * (x * z + w * y)),
        (2 * (x * y + w * z), unit - 2 * (x * x + z * z), 2 * (y * z - w * x)),
        (2 * (x * z - w * y), 2 * (y * z + w * x), unit - 2 * (x * x + y * y)),
    )
    return tuple(map(settled, rows))


def rotate(q, v):
    return tuple(settle(dot(row, v)) for row in matrix(q))


def turned(a, b):
    """The product of two quaternions, made of unit length again."""
    aw, ax, ay, az = a
    bw, bx, by, bz = b
    product = settled(
        (
            aw * bw - ax * bx - ay * by - az * bz,
            aw * bx + ax * bw + ay * bz - az * by,
            aw * by - ax * bz + ay * bw + az * bx,
            aw * bz + ax * by - ay * bx + az * bw,
        )
    )
    return unit_length(product)


def unit_length(q):
    length = isqrt(dot(q, q))
    return tuple(nearest(c << 32, length) for c in q)


def axis_angle(axis, angle):
    s, c = sin_cos(nearest(angle, 2))
    return (c, *settled(times(axis, s)))


def pair(s, f):
    return dot(s[0], f[0]) + dot(s[1], f[1])


def total(vectors):
    angular, linear = ZERO, ZERO
    for a, b in vectors:
        angular, linear = plus(angular, a), plus(linear, b)
    return angular, linear


def scaled(s, x):
    return times(s[0], x), times(s[1], x)


def settled6(s):
    return settled(s[0]), settled(s[1])


def motion_cross(v, s):
    return cross(v[0], s[0]), plus(cross(v[1], s[0]), cross(v[0], s[1]))


def force_cross(v, f):
    return plus(cross(v[0], f[0]), cross(v[1], f[1])), cross(v[0], f[1])


# ---- the chain


H = numeral("0.002", 32)
GRAVITY = (0, 0, numeral("-9.81", 32))
CENTRE = (0, 0, numeral("-0.05", 32))
DIAGONAL = numeral("0.001", 40)
DAMPING = numeral("0.05", 32)
GEAR = numeral("0.1", 32)
LIMIT = 2 * ONE
LEAST_HEIGHT = numeral("0.2", 32)


def masses(links, seed):
    x = seed
    for _ in range(links):
        x = (6364136223846793005 * x + 1442695040888963407) % 2**64
        yield numeral("0.%06d" % (50000 + (x >> 48)), 40)


def controls(links, seed, step):
    for j in range(1, links + 1):
        sine, _ = sin_cos((step * j + seed % 1024) << 26)
        yield min(ONE, max(-ONE, numeral(decimal(sine, 6), 32)))


def poses(q):
    """Of each link its quaternion and centre of mass, and its joint's axis and anchor."""
    place, turn = ZERO, (ONE, 0, 0, 0)
    for i, angle in enumerate(q):
        place = plus(place, rotate(turn, (0, 0, numeral("-0.1" if i else "0.5", 32))))
        turn = turned(turn, (ONE, 0, 0, 0) if i else unit_length((ONE, 0, ONE, 0)))
        local = (ONE, 0, 0) if i % 2 else (0, ONE, 0)
        axis = rotate(turn, local)
        turn = turned(turn, axis_angle(local, angle))
        yield turn, plus(place, rotate(turn, CENTRE)), axis, place


def inertia(mass, turn, arm):
    """The inertia about the reference point, the moment of mass, and the mass."""
    rows = matrix(turned(turn, (ONE, 0, 0, 0)))
    moment = tuple(settle(mass * r) for r in arm)
    full = [[0] * 3 for _ in range(3)]
    for a in range(3):
        for b in range(a, 3):
            shift = (dot(moment, arm) if a == b else 0) - moment[a] * arm[b]
            about = nearest(DIAGONAL * dot(rows[a], rows[b]), 1 << 64)
            full[a][b] = full[b][a] = about + settle(shift)
    return full, moment, mass


def momentum(body, s):
    full, moment, mass = body
    angular = plus(tuple(dot(row, s[0]) for row in full), cross(moment, s[1]))
    return angular, minus(times(s[1], mass), cross(moment, s[0]))


def mass_matrix(bodies, columns):
    n = len(columns)
    m = [[0] * n for _ in range(n)]
    for j in range(n):
        carried = settled6(total(momentum(body, columns[j]) for body in bodies[j:]))
        for i in range(j + 1):
            m[i][j] = m[j][i] = settle(pair(columns[i], carried))
    return m


def bias(bodies, columns, v):
    n = len(columns)
    moved = [scaled(columns[i], v[i]) for i in range(n)]
    rates = [settled6(motion_cross(settled6(total(moved[:j])), columns[j])) for j in range(n)]
    wrenches = []
    for k in range(n):
        velocity = settled6(total(moved[: k + 1]))
        fall = [(ZERO, times(GRAVITY, -ONE))]
        accel = settled6(total(fall + [scaled(rates[i], v[i]) for i in range(k + 1)]))
        own = settled6(momentum(bodies[k], velocity))
        wrenches.append(total([momentum(bodies[k], accel), force_cross(velocity, own)]))
    return [nearest(pair(columns[i], settled6(total(wrenches[i:]))), 1 << 40) for i in range(n)]


def solve(m, s):
    n = len(s)
    w = [[0] * n for _ in range(n)]
    l = [[0] * n for _ in range(n)]
    for k in reversed(range(n)):
        for i in range(k + 1):
            w[k][i] = m[k][i] - settle(sum(l[j][k] * w[j][i] for j in range(k + 1, n)))
        for i in range(k):
            l[k][i] = nearest(w[k][i] << 32, w[k][k])
    y, a = [0] * n, [0] * n
    for i in reversed(range(n)):
        y[i] = s[i] - settle(sum(l[k][i] * y[k] for k in range(i + 1, n)))
    for i in range(n):
        a[i] = nearest(y[i] << 40, w[i][i]) - settle(sum(l[i][k] * a[k] for k in range(i)))
    return a


def main(links, seed, steps):
    mass = list(masses(links, seed))
    q, v = [0] * links, [0] * links
    residual = 0
    for step in range(1, steps + 1):
        placed = list(poses(q))
        ref = placed[0][3]
        bodies = [inertia(mass[i], p[0], minus(p[1], ref)) for i, p in enumerate(placed)]
        columns = [(axis, settled(cross(minus(at, ref), axis))) for _, _, axis, at in placed]
        if min(p[1][2] for p in placed) < LEAST_HEIGHT or max(map(abs, q)) >= LIMIT:
            sys.exit("a link is near the plane or at its limit")
        m = mass_matrix(bodies, columns)
        pushed = controls(links, seed, step)
        applied = [settle(GEAR * x - DAMPING * y) for x, y in zip(pushed, v)]
        load = minus(applied, bias(bodies, columns, v))
        a = solve(m, load)
        residual = max([residual] + [abs(dot(m[i], a) - (load[i] << 40)) for i in range(links)])
        v = [x + settle(H * y) for x, y in zip(v, a)]
        q = [x + settle(H * y) for x, y in zip(q, v)]
    print(f"steps {steps} of {steps}\nend done\nrows 0 idle 0")
    print(f"sweeps 0 tolerance 0 limit 0 none {steps}\ngap 0\nresidual {residual}")
    print("q", *(decimal(x, 9) for x in q))
    print("v", *(decimal(x, 9) for x in v))


if __name__ == "__main__":
    main(*map(int, sys.argv[1:]))
