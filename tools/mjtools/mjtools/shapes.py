"""What a model looks like: capsules on its bodies, for pictures and scenes."""

from dataclasses import dataclass

import numpy as np

from .poses import body_poses
from .quaternions import rotated


@dataclass(frozen=True)
class Shape:
    """A capsule on a body (0: the world) from `start` to `end`, in m in the body's axes; a ball where they meet."""

    body: int
    name: str
    start: np.ndarray
    end: np.ndarray
    radius: float


def shapes(model):
    """All balls and capsules; where bodies have none, rods from each to its centre of mass and its children."""
    found = [_of_geom(geom) for geom in model.geoms if geom.type != "plane"]
    if any(shape.body for shape in found):
        return found
    return found + _rods(model)


def planes(model):
    """The model's planes, which are geoms of the world."""
    return [geom for geom in model.geoms if geom.type == "plane"]


def _of_geom(geom):
    half = rotated(geom.quat, [0, 0, geom.half])
    return Shape(geom.body, geom.name or f"geom{geom.number}", geom.pos + half, geom.pos - half, geom.radius)


def _rods(model):
    ends = [(body.number, body.name, body.ipos) for body in model.bodies]
    ends += [(body.parent, f"{body.name}_rod", body.pos) for body in model.bodies if body.parent]
    thickness = 0.04 * max([float(np.linalg.norm(end)) for _, _, end in ends] + [0.25])
    return [Shape(body, name, np.zeros(3), end, thickness) for body, name, end in ends]


def in_world(model, found, q):
    """Starts and ends (n, k, 3) of k shapes in world axes for positions q (n, nq)."""
    bodies = body_poses(model, q)
    ends = []
    for name in ("start", "end"):
        points = np.empty((len(bodies.position), len(found), 3))
        for place, shape in enumerate(found):
            point = getattr(shape, name)
            if shape.body:
                k = shape.body - 1
                point = bodies.position[:, k] + rotated(bodies.quaternion[:, k], point)
            points[:, place] = point
        ends.append(points)
    return ends


def frames(trace, model, rate, most):
    """Places of the steps to show, evenly apart from the first on: `rate` a second of the run, and at most `most`."""
    apart = max(1, round(1 / (rate * model.timestep)), -(-len(trace) // most))
    return np.arange(0, len(trace), apart)
