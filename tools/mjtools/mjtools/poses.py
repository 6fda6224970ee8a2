"""Where bodies and geoms are, in all steps at once, from positions as a trace has them.

The rules are those of a step's poses, in doubles: the results are within 1e-8 of the program's integers.
"""

from dataclasses import dataclass

import numpy as np

from .quaternions import about, product, rotated, unit


@dataclass(frozen=True)
class Poses:
    """position (n, k, 3) in m and quaternion (n, k, 4), w x y z, of k bodies or geoms in n steps, in world axes."""

    position: np.ndarray
    quaternion: np.ndarray


def body_poses(model, q):
    """Poses of all bodies of a Model for positions q (n, nq), or (nq,) for one step. Body k stands at place k - 1."""
    q = np.atleast_2d(q)
    if q.shape[1] != model.nq:
        raise ValueError(f"q has {q.shape[1]} positions a step, the model {model.nq}")
    n = len(q)
    position = np.zeros((n, len(model.bodies) + 1, 3))
    quaternion = np.zeros((n, len(model.bodies) + 1, 4))
    quaternion[:, 0, 0] = 1
    for k, body in enumerate(model.bodies, 1):
        at, turn = position[:, body.parent], quaternion[:, body.parent]
        at = at + rotated(turn, body.pos)
        turn = product(turn, body.quat)
        for joint in body.joints:
            at, turn = _moved(joint, q, at, turn)
        position[:, k], quaternion[:, k] = at, turn
    return Poses(position[:, 1:], unit(quaternion[:, 1:]))


def _moved(joint, q, at, turn):
    """The pose (at, turn) of a joint's body after the joint, for all steps."""
    own = q[:, joint.qadr : joint.qadr + joint.nq]
    if joint.type == "free":
        return own[:, :3], unit(own[:, 3:])
    if joint.type == "slide":
        return at + rotated(turn, joint.axis) * own, turn
    anchor = at + rotated(turn, joint.pos)
    turn = product(turn, unit(own) if joint.type == "ball" else about(joint.axis, own[:, 0]))
    return anchor - rotated(turn, joint.pos), turn


def centres(model, bodies):
    """Centres of mass (n, k, 3) of the bodies whose Poses these are."""
    offsets = np.array([body.ipos for body in model.bodies]).reshape(-1, 3)
    return bodies.position + rotated(bodies.quaternion, offsets[None])


def geom_poses(model, bodies):
    """Poses of all geoms, the world's first, from those of the bodies."""
    n = len(bodies.position)
    position = np.zeros((n, len(model.geoms), 3))
    quaternion = np.zeros((n, len(model.geoms), 4))
    for g, geom in enumerate(model.geoms):
        at, turn = np.zeros(3), np.array([1.0, 0, 0, 0])
        if geom.body:
            at, turn = bodies.position[:, geom.body - 1], bodies.quaternion[:, geom.body - 1]
        position[:, g] = at + rotated(turn, geom.pos)
        quaternion[:, g] = product(turn, geom.quat)
    return Poses(position, quaternion)
