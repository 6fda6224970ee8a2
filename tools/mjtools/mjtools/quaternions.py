"""Rotations of many steps at once. A quaternion is w x y z along the last axis, of length 1; vectors are x y z."""

import numpy as np


def product(a, b):
    """The rotation b and then a: a b, shapes (.., 4) that broadcast."""
    aw, ax, ay, az = np.moveaxis(np.asarray(a, float), -1, 0)
    bw, bx, by, bz = np.moveaxis(np.asarray(b, float), -1, 0)
    return np.stack(
        [
            aw * bw - ax * bx - ay * by - az * bz,
            aw * bx + ax * bw + ay * bz - az * by,
            aw * by - ax * bz + ay * bw + az * bx,
            aw * bz + ax * by - ay * bx + az * bw,
        ],
        axis=-1,
    )


def rotated(q, x):
    """The vectors x (.., 3) turned by q (.., 4)."""
    q, x = np.asarray(q, float), np.asarray(x, float)
    twice = 2 * np.cross(q[..., 1:], x)
    return x + q[..., :1] * twice + np.cross(q[..., 1:], twice)


def about(axis, angle):
    """The rotation by the angles (..) about a unit axis (3,): (.., 4)."""
    half = np.asarray(angle, float)[..., None] / 2
    return np.concatenate([np.cos(half), np.sin(half) * np.asarray(axis, float)], axis=-1)


def unit(x):
    """The vectors or quaternions x with length 1."""
    x = np.asarray(x, float)
    return x / np.linalg.norm(x, axis=-1, keepdims=True)
