"""Which geoms touch where, in all steps at once. A trace tells contacts by their numbers alone.

The rules are the program's, in doubles: a contact whose distance is within 1e-8 of the margin may be told otherwise.
"""

import numpy as np

from .poses import geom_poses, body_poses
from .quaternions import rotated

CONTACT = np.dtype(
    [
        ("step", np.int32),
        ("number", np.int32),
        ("geom1", np.int32),
        ("geom2", np.int32),
        ("dist", np.float64),
        ("point", np.float64, 3),
        ("normal", np.float64, 3),
    ]
)
"""A contact: `step`, `number` in the step, and the numbers of its geoms, all from 1; distance in m, below 0 where they
overlap; point in m and normal, from geom 1 to geom 2, in world axes. A row line `contact N` of the step is of the
contact with the number N."""

ORDER = ("plane", "sphere", "capsule")
PARALLEL = 2.0**-20
BLOCK = 10000


def state_contacts(model, q):
    """The contacts of a Model in the states q (n, nq): CONTACT, in the order of steps and pairs; state k is step k."""
    q = np.atleast_2d(q)
    parts = [_of_block(model, q[start : start + BLOCK], start) for start in range(0, len(q), BLOCK)]
    found = np.concatenate(parts or [np.empty(0, CONTACT)])
    counts = np.bincount(found["step"], minlength=len(q) + 1)
    found["number"] = np.arange(len(found)) - np.repeat(np.cumsum(counts) - counts, counts) + 1
    return found


def _of_block(model, q, before):
    """The contacts of some states in their order, without numbers; `before` states stand before them."""
    geoms = geom_poses(model, body_poses(model, q))
    found = [meeting for a, b in _pairs(model) for meeting in _meetings(geoms, a, b)]
    found = np.concatenate(found or [np.empty(0, CONTACT)])
    found["step"] += before
    return found[np.argsort(found["step"], kind="stable")]


def trace_contacts(model, trace):
    """The contacts of each step of a Trace, which are those of the state that it starts from."""
    start = np.array(model.raw_qpos0)[None] * 2.0**-32
    return state_contacts(model, np.concatenate([start, trace.q[:-1]])[: len(trace)])


def _pairs(model):
    """The pairs of geoms that are tested, in their order, geom 1 before geom 2."""
    moved = _moved(model)
    found = []
    for at, first in enumerate(model.geoms):
        for second in model.geoms[at + 1 :]:
            if _is_tested(model, moved, first, second):
                found.append(sorted((first, second), key=lambda geom: (ORDER.index(geom.type), geom.number)))
    return found


def _moved(model):
    """Of each body, the world first, whether a dof moves it."""
    moved = [False]
    for body in model.bodies:
        moved.append(bool(body.joints) or moved[body.parent])
    return moved


def _is_tested(model, moved, first, second):
    a, b = first.body, second.body
    parents = [0] + [body.parent for body in model.bodies]
    return (
        bool(first.contype & second.conaffinity or second.contype & first.conaffinity)
        and a != b
        and not (parents[a] == b != 0 or parents[b] == a != 0)
        and (moved[a] or moved[b])
        and not first.type == second.type == "plane"
    )


def _meetings(geoms, first, second):
    """The contacts of one pair over all steps, without numbers: one array, or two for a capsule on a plane."""
    pose = [(geoms.position[:, g.number - 1], geoms.quaternion[:, g.number - 1]) for g in (first, second)]
    axis = [rotated(quaternion, [0, 0, 1.0]) for _, quaternion in pose]
    at = [position for position, _ in pose]
    if first.type == "plane":
        ends = (1, -1) if second.type == "capsule" else (0,)
        balls = [at[1] + axis[1] * (end * second.half) for end in ends]
        touches = [_plane_and_ball(at[0], axis[0], ball, second.radius) for ball in balls]
    else:
        along = _nearest(at[1] - at[0], axis, (first.half, second.half))
        centres = [at[k] + axis[k] * along[k][:, None] for k in (0, 1)]
        touches = [_two_balls(*centres, first.radius, second.radius)]
    return [_contacts(first, second, *touch) for touch in touches]


def _plane_and_ball(at, normal, ball, radius):
    dist = np.sum(normal * (ball - at), axis=1) - radius
    return dist, ball - normal * (radius + dist / 2)[:, None], normal


def _two_balls(one, other, radius1, radius2):
    apart = other - one
    length = np.linalg.norm(apart, axis=1)
    normal = np.where(length[:, None] > 0, apart / np.where(length > 0, length, 1)[:, None], [0, 0, 1.0])
    dist = length - radius1 - radius2
    return dist, one + normal * (radius1 + dist / 2)[:, None], normal


def _nearest(apart, axis, half):
    """How far along their axes two capsules are nearest; a ball has half length 0."""
    u, p1, p2 = (np.sum(a * b, axis=1) for a, b in ((axis[0], axis[1]), (axis[0], apart), (axis[1], apart)))
    if half[0] == 0:
        return np.zeros_like(u), np.clip(-p2, -half[1], half[1])
    rest = 1 - u * u
    s = np.where(rest > PARALLEL, (p1 - u * p2) / np.where(rest > PARALLEL, rest, 1), p1)
    t = np.clip(u * np.clip(s, -half[0], half[0]) - p2, -half[1], half[1])
    return np.clip(p1 + u * t, -half[0], half[0]), t


def _contacts(first, second, dist, point, normal):
    """The steps of a pair in which it is a contact."""
    steps = np.flatnonzero(dist < max(first.margin, second.margin))
    found = np.zeros(len(steps), CONTACT)
    found["step"], found["geom1"], found["geom2"] = steps + 1, first.number, second.number
    found["dist"], found["point"], found["normal"] = dist[steps], point[steps], normal[steps]
    return found
