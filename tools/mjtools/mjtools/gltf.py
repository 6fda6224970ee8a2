"""A run as a scene of glTF 2.0: a node for each body, whose poses are keyed over time."""

import json
from base64 import b64encode

import numpy as np

from .errors import Unusable
from .poses import body_poses
from .quaternions import about, product
from .shapes import frames, planes, shapes
from .writing import whole_file

MOST_KEYS = 3000
AROUND, ALONG = 16, 5
FLOAT, SHORT = 5126, 5123
LEVEL = (-(0.5**0.5), 0.0, 0.0, 0.5**0.5)
"""The turn x y z w that takes z up, as models have it, to y up, as glTF has it."""

COLOURS = [(0.31, 0.51, 0.74), (0.85, 0.55, 0.37), (0.42, 0.65, 0.52), (0.6, 0.5, 0.71), (0.79, 0.66, 0.29)]
GROUND = (0.85, 0.87, 0.89)


def write_gltf(trace, model, path, rate=30.0):
    """Writes a Trace with its Model as a scene, `rate` keys a second, into a .glb, or a .gltf with its data inside."""
    kind = str(path).rpartition(".")[2].lower()
    if kind not in ("glb", "gltf"):
        raise Unusable(f"{path}: a scene is a .glb or a .gltf")
    if not len(trace):
        raise Unusable(f"{trace.path}: no step was done, so there is nothing to see")
    scene = Scene()
    places = frames(trace, model, rate, MOST_KEYS)
    found = body_poses(model, trace.q[places])
    bodies = [
        scene.node(body.name, found.position[0, k], found.quaternion[0, k]) for k, body in enumerate(model.bodies)
    ]
    for shape in shapes(model):
        scene.capsule(shape, bodies[shape.body - 1] if shape.body else None)
    for plane in planes(model):
        scene.plane(plane)
    scene.animate(bodies, trace.steps[places] * model.timestep, found)
    with whole_file(path) as file:
        file.write(scene.binary() if kind == "glb" else scene.text())


class Scene:
    """A scene while it is made: nodes, meshes and their data."""

    def __init__(self):
        self._data = bytearray()
        self._meshes = {}
        self._document = {
            "asset": {"version": "2.0", "generator": "mjtools"},
            "scene": 0,
            "scenes": [{"nodes": [0]}],
            "nodes": [{"name": "world", "rotation": list(LEVEL), "children": []}],
            "meshes": [],
            "materials": [_material(colour) for colour in (*COLOURS, GROUND)],
            "accessors": [],
            "bufferViews": [],
        }

    def node(self, name, position, quaternion, parent=0, **more):
        """Adds a node with its pose in its parent's axes, w x y z; its number."""
        nodes = self._document["nodes"]
        turn = [float(x) for x in np.roll(quaternion, -1)]
        nodes.append({"name": name, "translation": [float(x) for x in position], "rotation": turn, **more})
        nodes[parent].setdefault("children", []).append(len(nodes) - 1)
        return len(nodes) - 1

    def capsule(self, shape, body):
        """Adds a shape to the node of its body, or to the world."""
        along = shape.start - shape.end
        half = float(np.linalg.norm(along)) / 2
        colour = shape.body % len(COLOURS)
        key = (round(shape.radius, 9), round(half, 9), colour)
        if key not in self._meshes:
            self._meshes[key] = self._mesh(*_capsule(shape.radius, half), colour)
        turn = _from_z(along / (2 * half)) if half else np.array([1.0, 0, 0, 0])
        self.node(shape.name, (shape.start + shape.end) / 2, turn, body or 0, mesh=self._meshes[key])

    def plane(self, geom, size=10.0):
        """Adds a square of a plane."""
        corners = size * np.array([[-1, -1, 0], [1, -1, 0], [1, 1, 0], [-1, 1, 0]])
        normals = np.tile([0, 0, 1.0], (4, 1))
        mesh = self._mesh(corners, normals, np.array([0, 1, 2, 0, 2, 3]), len(COLOURS))
        self.node(geom.name or f"plane{geom.number}", geom.pos, geom.quat, mesh=mesh)

    def animate(self, nodes, times, found):
        """Keys the poses of these nodes: times (n,) in s, and Poses of n steps."""
        sampler = self._accessor(times.astype("<f4"), "SCALAR", FLOAT, ends=True)
        channels, samplers = [], []
        for k, node in enumerate(nodes):
            turns = _continuous(found.quaternion[:, k])
            for path, values in (("translation", found.position[:, k]), ("rotation", np.roll(turns, -1, axis=1))):
                output = self._accessor(values.astype("<f4"), f"VEC{values.shape[1]}", FLOAT)
                channels.append({"sampler": len(samplers), "target": {"node": node, "path": path}})
                samplers.append({"input": sampler, "output": output, "interpolation": "LINEAR"})
        self._document["animations"] = [{"name": "run", "channels": channels, "samplers": samplers}]

    def binary(self):
        """The scene as a .glb."""
        self._document["buffers"] = [{"byteLength": len(self._data)}]
        text = json.dumps(self._document, separators=(",", ":")).encode()
        text += b" " * (-len(text) % 4)
        data = bytes(self._data) + bytes(-len(self._data) % 4)
        chunks = b"".join(
            len(part).to_bytes(4, "little") + kind + part for kind, part in ((b"JSON", text), (b"BIN\0", data))
        )
        return b"glTF" + (2).to_bytes(4, "little") + (12 + len(chunks)).to_bytes(4, "little") + chunks

    def text(self):
        """The scene as a .gltf with its data inside."""
        uri = "data:application/octet-stream;base64," + b64encode(self._data).decode()
        self._document["buffers"] = [{"byteLength": len(self._data), "uri": uri}]
        return json.dumps(self._document, indent=1).encode()

    def _mesh(self, points, normals, triangles, material):
        primitive = {
            "attributes": {
                "POSITION": self._accessor(points.astype("<f4"), "VEC3", FLOAT, ends=True),
                "NORMAL": self._accessor(normals.astype("<f4"), "VEC3", FLOAT),
            },
            "indices": self._accessor(triangles.astype("<u2"), "SCALAR", SHORT),
            "material": material,
        }
        self._document["meshes"].append({"primitives": [primitive]})
        return len(self._document["meshes"]) - 1

    def _accessor(self, values, kind, component, ends=False):
        """Adds the numbers to the data; the accessor's number. `ends`: with their least and greatest."""
        self._data += bytes(-len(self._data) % 4)
        views, accessors = self._document["bufferViews"], self._document["accessors"]
        views.append({"buffer": 0, "byteOffset": len(self._data), "byteLength": values.nbytes})
        accessor = {"bufferView": len(views) - 1, "componentType": component, "count": len(values), "type": kind}
        if ends:
            accessor["min"] = np.atleast_1d(values.min(axis=0)).tolist()
            accessor["max"] = np.atleast_1d(values.max(axis=0)).tolist()
        accessors.append(accessor)
        self._data += values.tobytes()
        return len(accessors) - 1


def _material(colour):
    return {
        "pbrMetallicRoughness": {"baseColorFactor": [*colour, 1.0], "metallicFactor": 0.0, "roughnessFactor": 0.8},
        "doubleSided": True,
    }


def _capsule(radius, half):
    """Points, normals and triangles of a capsule along z; a ball has one ring of points at its middle, not two."""
    upper, lower = np.linspace(np.pi / 2, 0, ALONG), np.linspace(0, -np.pi / 2, ALONG)[0 if half else 1 :]
    tilt = np.concatenate([upper, lower])
    shift = np.repeat([half, -half], [len(upper), len(lower)])
    turn = np.linspace(0, 2 * np.pi, AROUND + 1)
    tilts, turns = np.meshgrid(tilt, turn, indexing="ij")
    normals = np.stack([np.cos(tilts) * np.cos(turns), np.cos(tilts) * np.sin(turns), np.sin(tilts)], axis=-1)
    points = radius * normals
    points[..., 2] += shift[:, None]
    at = np.arange(len(tilt) - 1)[:, None] * (AROUND + 1) + np.arange(AROUND)
    below = at + AROUND + 1
    triangles = np.stack([at, below, at + 1, at + 1, below, below + 1], axis=-1).reshape(len(at), AROUND, 2, 3)
    parts = triangles[0, :, 1], triangles[1:-1], triangles[-1, :, 0]
    return points.reshape(-1, 3), normals.reshape(-1, 3), np.concatenate([part.reshape(-1) for part in parts])


def _from_z(direction):
    """A rotation that takes z to this unit vector."""
    tilt = about([0, 1, 0], np.arccos(np.clip(direction[2], -1, 1)))
    return product(about([0, 0, 1], np.arctan2(direction[1], direction[0])), tilt)


def _continuous(turns):
    """The quaternions (n, 4) with signs such that each is near the one before: none turns the long way round."""
    flips = np.sum(turns[1:] * turns[:-1], axis=1) < 0
    signs = np.concatenate(([1.0], np.where(np.cumsum(flips) % 2, -1.0, 1.0)))
    return turns * signs[:, None]
