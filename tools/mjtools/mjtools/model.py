"""Models: what traces need to be read with names, in seconds and as pictures.

`mj` alone judges a model. This reader takes what it needs from the file and refuses what it can't use.
"""

import tomllib
from dataclasses import dataclass, field
from math import hypot

import numpy as np

from .errors import ModelError, TraceError
from .numerals import nearest, numeral
from .places import line_of

POSITIONS = {"free": 7, "ball": 4, "hinge": 1, "slide": 1}
VELOCITIES = {"free": 6, "ball": 3, "hinge": 1, "slide": 1}
TURN = ("w", "x", "y", "z")


@dataclass(frozen=True)
class Joint:
    """A joint: pos in m and axis, a unit, in its body's axes; range in m or rad, or None.

    `number` and `body` count from 1; its positions begin at place `qadr` of q, its velocities at `dadr` of v. `place`
    is its path in the file, here and in the other classes.
    """

    place: str
    number: int
    name: str
    type: str
    body: int
    pos: np.ndarray
    axis: np.ndarray
    range: tuple | None
    qadr: int
    dadr: int

    @property
    def nq(self):
        """How many positions it has."""
        return POSITIONS[self.type]

    @property
    def nv(self):
        """How many velocities it has."""
        return VELOCITIES[self.type]


@dataclass(frozen=True)
class Geom:
    """A geom: radius and half length in m (0 where it has none), pos and quat in its body's axes; body 0: the world."""

    place: str
    number: int
    name: str
    type: str
    body: int
    pos: np.ndarray
    quat: np.ndarray
    radius: float
    half: float
    contype: int
    conaffinity: int
    margin: float


@dataclass(frozen=True)
class Body:
    """A body: pos in m and quat in its parent's axes, mass in kg, its centre of mass ipos; parent 0 is the world."""

    place: str
    number: int
    name: str
    parent: int
    pos: np.ndarray
    quat: np.ndarray
    mass: float
    ipos: np.ndarray
    joints: list = field(default_factory=list)


@dataclass(frozen=True)
class Model:
    """A model: lists of what it has in the order of their numbers, sizes, timestep in s, and the start.

    `raw_timestep` and `raw_qpos0` are the integers of timestep and first positions at scale 32. `tendons` and `motors`
    are names, an unnamed one with its number.
    """

    path: str
    format: int
    raw_timestep: int
    bodies: list
    joints: list
    geoms: list
    tendons: list
    motors: list
    raw_qpos0: list

    @property
    def timestep(self):
        """The time between two steps, in s, as the program rounds it."""
        return self.raw_timestep / 2**32

    @property
    def nq(self):
        """How many positions a state has."""
        return sum(joint.nq for joint in self.joints)

    @property
    def nv(self):
        """How many velocities a state has."""
        return sum(joint.nv for joint in self.joints)

    @property
    def position_names(self):
        """nq names: a joint's own, or with .x .y .z for a free joint's place and .qw to .qz for a quaternion."""
        return [
            name
            for joint in self.joints
            for name in _names(joint, {"free": ["x", "y", "z"] + _turns("q")}.get(joint.type, _turns("q")))
        ]

    @property
    def velocity_names(self):
        """nv names: a joint's own, or with .vx .vy .vz (world axes) and .wx .wy .wz (body axes)."""
        turns = ["wx", "wy", "wz"]
        return [
            name
            for joint in self.joints
            for name in _names(joint, ["vx", "vy", "vz"] + turns if joint.nv == 6 else turns)
        ]

    def check(self, trace):
        """Refuses, by TraceError, a trace that this model can't have made, as far as its first step tells."""
        other = f"{trace.path} is a trace of another model than {self.path}"
        if trace.format != self.format:
            raise TraceError(f"{other}: format {trace.format}, not {self.format}")
        if (trace.nq, trace.nv) != (self.nq, self.nv):
            raise TraceError(f"{other}: nq={trace.nq} nv={trace.nv}, not nq={self.nq} nv={self.nv}")
        if not len(trace) or not trace.has("q", "v"):
            return
        q, v = trace.raw("q")[0].tolist(), trace.raw("v")[0].tolist()
        for joint in self.joints:
            for i in range({"free": 3, "ball": 0}.get(joint.type, 1)):
                at = joint.qadr + i
                if q[at] != self.raw_qpos0[at] + nearest(self.raw_timestep * v[joint.dadr + i], 2**32):
                    raise TraceError(
                        f"{other}, or the model was changed since: its first step doesn't lead from this start "
                        f"to {self.position_names[at]} = {q[at] / 2**32:.9g} in {self.timestep:.9g} s"
                    )


def _names(joint, parts):
    name = joint.name or f"joint{joint.number}"
    return [name] if joint.nq == 1 else [f"{name}.{part}" for part in parts]


def _turns(letter):
    return [letter + part for part in TURN]


def load_document(path):
    """The file's text and its document as tomllib gives it; ModelError with line and column where it is no TOML."""
    try:
        with open(path, "rb") as file:
            data = file.read()
        text = data.decode()
        return text, tomllib.loads(text)
    except UnicodeDecodeError as fault:
        line = data.count(b"\n", 0, fault.start) + 1
        raise ModelError(f"{path}:{line}: no text in UTF-8, so no TOML") from None
    except tomllib.TOMLDecodeError as fault:
        raise ModelError(f"{path}: no TOML: {fault}") from None


def read_model(path):
    """Reads the model in the file `path`: a Model, or ModelError where it can't be used."""
    text, document = load_document(path)
    return _Taking(str(path), text).model(document)


class _Taking:
    """What takes a model from a document, and tells the line of what it can't use."""

    def __init__(self, path, text):
        self.path, self.text = path, text

    def fault(self, place, what):
        """What can't be used at a path, with the file's line."""
        line = line_of(self.text, place)
        where = f"{self.path}:{line}" if line else self.path
        return ModelError(f"{where}: {place}: {what} (mjtools explain {self.path} tells more)")

    def raw(self, value, place, scale=32):
        """A number of the document as an integer in units of 2^-scale."""
        if isinstance(value, float):
            raise self.fault(place, f'a TOML float is refused: write {value!r} as text, "{value!r}"')
        if isinstance(value, bool) or not isinstance(value, int | str):
            raise self.fault(place, "no number")
        try:
            return value << scale if isinstance(value, int) else numeral(value, scale)
        except ValueError as fault:
            raise self.fault(place, str(fault)) from None

    def numbers(self, table, key, place, default, counts):
        """The numbers of an array, as doubles. `counts` are the lengths that it may have."""
        values = table.get(key, default)
        if not isinstance(values, list) or len(values) not in counts:
            raise self.fault(f"{place}.{key}", f"not {' or '.join(map(str, counts))} numbers in an array")
        return np.array([self.raw(value, f"{place}.{key}") / 2**32 for value in values])

    def unit(self, table, key, place, default):
        """The numbers of an array, made a unit."""
        x = self.numbers(table, key, place, default, [len(default)])
        if hypot(*x) == 0:
            raise self.fault(f"{place}.{key}", "too short to be made a unit")
        return x / hypot(*x)

    def tables(self, document, key, place=""):
        """The tables of an array of tables, each with its path."""
        path = f"{place}.{key}" if place else key
        tables = document.get(key, [])
        if not isinstance(tables, list) or not all(isinstance(table, dict) for table in tables):
            raise self.fault(path, f"not tables, as [[{key}]] begins one")
        return [(table, f"{path}[{k}]") for k, table in enumerate(tables, 1)]

    def model(self, document):
        """The model of a whole document."""
        form, option = document.get("format", 1), document.get("option", {})
        if form not in (1, 2):
            raise self.fault("format", f"format {form!r}; these tools know formats 1 and 2")
        if not isinstance(option, dict):
            raise self.fault("option", "not a table")
        timestep = self.raw(option.get("timestep", "0.002"), "option.timestep")
        geoms = []
        for table, place in self.tables(document, "geom"):
            self.geom(table, place, 0, geoms)
        bodies, joints = self.bodies(document, geoms)
        names = {
            key: [t.get("name", f"{key}{k}") for k, (t, _) in enumerate(self.tables(document, key), 1)]
            for key in ("tendon", "motor")
        }
        start = self.start(document, bodies, joints)
        return Model(self.path, form, timestep, bodies, joints, geoms, names["tendon"], names["motor"], start)

    def bodies(self, document, geoms):
        """All bodies and joints; the bodies' geoms are added to the world's."""
        bodies, joints, numbers = [], [], {"world": 0}
        for k, (table, place) in enumerate(self.tables(document, "body"), 1):
            body = self.body(table, place, k, numbers)
            bodies.append(body)
            numbers[body.name] = k
            for one, path in self.tables(table, "joint", place):
                joints.append(self.joint(one, path, k, joints))
                body.joints.append(joints[-1])
            for one, path in self.tables(table, "geom", place):
                self.geom(one, path, k, geoms)
        return bodies, joints

    def body(self, table, place, number, numbers):
        """One body without its joints; `numbers` has those of the bodies above by their names."""
        name, parent = table.get("name"), table.get("parent", "world")
        if not isinstance(name, str):
            raise self.fault(f"{place}.name", "a body has no name")
        if parent not in numbers:
            raise self.fault(f"{place}.parent", f"no body above it has the name {parent!r}")
        inertial = table.get("inertial", {})
        mass = self.raw(inertial.get("mass", 0), f"{place}.inertial.mass", 40) / 2**40
        zero, one = [0, 0, 0], [1, 0, 0, 0]
        return Body(
            place,
            number,
            name,
            numbers[parent],
            self.numbers(table, "pos", place, zero, [3]),
            self.unit(table, "quat", place, one),
            mass,
            self.numbers(inertial, "pos", f"{place}.inertial", zero, [3]),
        )

    def joint(self, table, place, body, before):
        """One joint of the body with this number, behind those before."""
        kind = table.get("type", "hinge")
        if kind not in POSITIONS:
            raise self.fault(f"{place}.type", f"{kind!r} is no type of a joint: {', '.join(POSITIONS)}")
        ends = None
        if "range" in table:
            ends = tuple(self.numbers(table, "range", place, None, [2]))
        return Joint(
            place,
            len(before) + 1,
            table.get("name", ""),
            kind,
            body,
            self.numbers(table, "pos", place, [0, 0, 0], [3]),
            self.unit(table, "axis", place, [0, 0, 1]),
            ends,
            sum(joint.nq for joint in before),
            sum(joint.nv for joint in before),
        )

    def geom(self, table, place, body, before):
        """Adds one geom of the body with this number to those before."""
        kind = table.get("type", "sphere")
        needed = {"plane": 0, "sphere": 1, "capsule": 2}.get(kind)
        if needed is None:
            raise self.fault(f"{place}.type", f"{kind!r} is no type of a geom: plane, sphere, capsule")
        size = [0.0, 0.0]
        if needed:
            size[:needed] = self.numbers(table, "size", place, None, range(needed, 4))[:needed]
        before.append(
            Geom(
                place,
                len(before) + 1,
                table.get("name", ""),
                kind,
                body,
                self.numbers(table, "pos", place, [0, 0, 0], [3]),
                self.unit(table, "quat", place, [1, 0, 0, 0]),
                *size,
                self.mask(table, "contype", place),
                self.mask(table, "conaffinity", place),
                self.raw(table.get("margin", 0), f"{place}.margin") / 2**32,
            )
        )

    def mask(self, table, key, place):
        """An integer whose bits tell which geoms meet."""
        value = table.get(key, 1)
        if isinstance(value, bool) or not isinstance(value, int):
            raise self.fault(f"{place}.{key}", "no integer")
        return value

    def start(self, document, bodies, joints):
        """The raw first positions: the keyframe's, or where free bodies are; quaternions as they are given."""
        keyframe = document.get("keyframe", {})
        if "qpos" in keyframe:
            values = keyframe["qpos"]
            if not isinstance(values, list) or len(values) != sum(joint.nq for joint in joints):
                raise self.fault("keyframe.qpos", "not one number for each position")
            return [self.raw(value, "keyframe.qpos") for value in values]
        start = []
        for joint in joints:
            body = bodies[joint.body - 1]
            if joint.type == "free":
                start += [round(x * 2**32) for x in (*body.pos, *body.quat)]
            else:
                start += [2**32, 0, 0, 0] if joint.type == "ball" else [0]
        return start
