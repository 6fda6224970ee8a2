"""Traces of `mj run` as numpy arrays in SI units."""

import re
from dataclasses import dataclass
from functools import cached_property

import numpy as np

from .dual import read_dual
from .errors import TraceError
from .lines import LARGEST, integers, large_integers, pieces
from .rows import KINDS, parse_rows

LINES = ("step", "q", "v", "a", "residual", "radius", "rows", "row", "stop", "cost", "dual", "ball", "inverse", "x")
"""The kinds of lines that `read` can be asked for. Those of a dual are only found; `Trace.dual` reads them."""

WISHED = {"dual": "run it with --dual yes", "ball": "run it with --ball yes", "inverse": "make it by mj inverse"}
"""Lines that all blocks have, or none, and how to get them."""

HEADER = re.compile(rb"trace (\d+) nq=(\d+) nv=(\d+) steps=(\d+)")
EARLY_END = re.compile(rb"end out-of-range step=(\d+) kind=(\w+) index=(\d+)")
STOPS = (b"none", b"tolerance ", b"limit ")
UNIT = 2.0**-32


@dataclass(frozen=True)
class End:
    """How a run ended: done, or with the first number out of range, its step, kind and index."""

    is_done: bool
    step: int = 0
    kind: str = ""
    index: int = 0


class Trace:
    """A run of n steps with nq positions and nv velocities. Arrays are made when they are first asked for.

    `path`, `format` (1 or 2), `nq`, `nv`, `asked` (the steps that were asked for) and `end` (an End) are plain. Step k
    stands at place k - 1 of each array.
    """

    def __init__(self, path, header, end, parts):
        self.path = path
        self.format, self.nq, self.nv, self.asked = header
        self.end = end
        self._parts = parts

    def __len__(self):
        """How many steps were done."""
        return self.asked if self.end.is_done else self.end.step - 1

    def raw(self, name):
        """The integers of the lines of this name, as they stand in the file.

        int64: q (n, nq), v and a (n, nv), radius (n, 2), rows (n, 2), stop (n, 2: 0 none, 1 tolerance, 2 limit, and
        the sweeps), x (all rows of all duals, 2: the row and its separated force). Python's integers in an object
        array: residual (n, 1) in 2^-72, cost (n, 2: cost and bound) in 2^-88, inverse (n, 2: gap in 2^-20, discrepancy
        in 2^-72), ball (n, 3: shift, low in 2^-40, radius in 2^-32; shift -1 where there is none); they have up to 125
        bits, so that a difference is to be taken before it becomes a double.
        """
        if name not in self._parts:
            raise AttributeError(f"the lines {name} weren't read: leave out only=, or name them in it")
        return self._parts[name]

    def has(self, *names):
        """Whether the lines of all these names were read."""
        return all(name in self._parts for name in names)

    def tells(self, name):
        """Whether the trace has lines of this name, one of WISHED, and they were read."""
        return self.has(name) and len(self._parts[name]) > 0

    def _wished(self, name):
        if len(self) and not len(self.raw(name)):
            raise TraceError(f"{self.path}: it has no lines {name}: {WISHED[name]}")
        return self.raw(name)

    @property
    def steps(self):
        """(n,) the numbers of the steps, from 1."""
        return np.arange(1, len(self) + 1)

    @cached_property
    def q(self):
        """(n, nq) positions after each step: m, rad, and quaternions w x y z."""
        return self.raw("q") * UNIT

    @cached_property
    def v(self):
        """(n, nv) velocities after each step: m/s and rad/s."""
        return self.raw("v") * UNIT

    @cached_property
    def a(self):
        """(n, nv) accelerations in each step: m/s^2 and rad/s^2."""
        return self.raw("a") * UNIT

    @cached_property
    def residual(self):
        """(n,) the largest error of M a = tau - c + J^T f over the dofs: N or N m."""
        return (self.raw("residual")[:, 0] / 2**72).astype(float)

    @cached_property
    def mass_radius(self):
        """(n,) how far rounding can have moved an entry of the mass matrix: kg, kg m or kg m^2."""
        return self.raw("radius")[:, 0] * 2.0**-40

    @cached_property
    def bias_radius(self):
        """(n,) how far rounding can have moved a bias force: N or N m."""
        return self.raw("radius")[:, 1] * UNIT

    @property
    def rows(self):
        """(n,) how many rows each step has, idle ones included."""
        return self.raw("rows")[:, 0]

    @property
    def idle(self):
        """(n,) how many of its rows are idle: no dof moves them, and they have no force."""
        return self.raw("rows")[:, 1]

    @property
    def sweeps(self):
        """(n,) how many sweeps the solver made; 0 without a row in the dual."""
        return self.raw("stop")[:, 1]

    @property
    def at_limit(self):
        """(n,) whether the sweeps ran out before the tolerance was reached."""
        return self.raw("stop")[:, 0] == STOPS.index(b"limit ")

    @cached_property
    def cost(self):
        """(n,) twice the cost of the forces in the dual: N m/s^2."""
        return (self.raw("cost")[:, 0] / 2**88).astype(float)

    @cached_property
    def bound(self):
        """(n,) what twice the cost of any feasible forces is at least: N m/s^2."""
        return (self.raw("cost")[:, 1] / 2**88).astype(float)

    @cached_property
    def gap(self):
        """(n,) cost less bound, taken exactly and rounded once: N m/s^2."""
        cost = self.raw("cost")
        return ((cost[:, 0] - cost[:, 1]) / 2**88).astype(float)

    @cached_property
    def relative_gap(self):
        """(n,) the gap over the cost's size; 0 where the gap is 0, infinite where only the cost is."""
        size = np.abs(self.cost)
        ratio = np.full(len(size), np.inf)
        np.divide(self.gap, size, out=ratio, where=size > 0)
        return np.where(self.gap == 0, 0.0, ratio)

    @property
    def row_lines(self):
        """The row lines of all steps in order: a structured array of `mjtools.ROW`, forces and boxes in N or N m."""
        return self.raw("row")

    def rows_of(self, kind):
        """The row lines of one kind: low, high, tlow, thigh, contact, equality or friction."""
        return self.row_lines[self.row_lines["kind"] == KINDS.index(kind)]

    @cached_property
    def ball_radius(self):
        """(n,) how far a can be from the rational solution of the step's own rounded system M x = s, in Euclid's length
        over all dofs: m/s^2 or rad/s^2; nan where the line is `ball none`. Of a run with --ball yes."""
        ball = self._wished("ball")
        return np.where(ball[:, 0] < 0, np.nan, (ball[:, 2] / 2**32).astype(float))

    @cached_property
    def ball_low(self):
        """(n,) what the least eigenvalue of the step's mass matrix is at least: kg or kg m^2; nan as ball_radius."""
        ball = self._wished("ball")
        return np.where(ball[:, 0] < 0, np.nan, (ball[:, 1] / 2**40).astype(float))

    @cached_property
    def inverse_gap(self):
        """(n,) the largest difference of a row's separated force and its force: N or N m. Of mj inverse."""
        return (self._wished("inverse")[:, 0] / 2**20).astype(float)

    @cached_property
    def discrepancy(self):
        """(n,) the largest error of M a = tau - c + J^T x, x the separated forces: N or N m. Of mj inverse."""
        return (self._wished("inverse")[:, 1] / 2**72).astype(float)

    @cached_property
    def separated(self):
        """The separated forces of the rows that aren't idle, in the order of `row_lines`: N or N m. Of mj inverse."""
        if not len(self.raw("x")) and (self.rows > self.idle).any():
            raise TraceError(f"{self.path}: it has no lines x: {WISHED['inverse']}")
        return self.raw("x")[:, 1] * 2.0**-20

    def dual(self, step):
        """The dual of this step, from 1, as `run --dual yes` prints it: a `mjtools.Dual`, read from the file anew."""
        self._wished("dual")
        if not 1 <= step <= len(self):
            raise IndexError(f"step {step} of {len(self)}")
        return read_dual(self.path, self.raw("dual")[step - 1], self.nv, self.format == 2)


def read(path, only=None):
    """Reads the trace in the file `path`: a Trace, or TraceError where it isn't a whole one.

    only: None for all, else the names of the lines to read, one or several of LINES, as "q" or ("rows", "row"). The
    others are passed over, which takes a tenth of the time.
    """
    wanted = LINES if only is None else (only,) if isinstance(only, str) else tuple(only)
    if not set(wanted) <= set(LINES):
        raise ValueError(f"only= takes names of lines: {', '.join(LINES)}")
    if {"row", "x"} & set(wanted) and "rows" not in wanted:
        wanted += ("rows",)
    return _Reading(str(path), wanted, is_whole=only is None).trace()


class _Reading:
    """A trace while it is read: what each kind of line gave, piece by piece."""

    def __init__(self, path, wanted, is_whole):
        self.path, self.is_whole = path, is_whole
        self.parts = {name: [] for name in wanted}
        self.header = None
        self.end = None

    def trace(self):
        """Reads the whole file."""
        for piece in pieces(self.path):
            if self.end is not None:
                raise TraceError(f"{self.path}:{piece.first}: something stands behind the trace's end")
            known = 0 if self.header else self._take_header(piece)
            for name in self.parts:
                known += self._take(name, piece)
            known += self._take_end(piece)
            if self.is_whole:
                self._pass_over(piece, known)
        if self.header is None:
            raise TraceError(f"{self.path}: an empty file: mj writes nothing where it can't read a file (status 6)")
        return self._joined()

    def _take_header(self, piece):
        line = piece.line(0)
        found = HEADER.fullmatch(line)
        if not found:
            raise TraceError(f"{self.path}:1: {_not_a_trace(line)}")
        self.header = tuple(map(int, found.groups()))
        form, nq, nv, steps = self.header
        if form not in (1, 2):
            raise TraceError(f"{self.path}:1: a trace of format {form}; these tools know formats 1 and 2")
        if not (1 <= nq <= 128 and 1 <= nv <= 64 and steps <= 1_000_000):
            raise TraceError(f"{self.path}:1: no trace of mj has such counts: {line.decode()}")
        return 1

    def _take_end(self, piece):
        """Reads the piece's last line where it is the trace's end; how many lines that is."""
        line = piece.line(len(piece) - 1)
        if not line.startswith(b"end "):
            return 0
        found = EARLY_END.fullmatch(line)
        if not found and line != b"end done":
            raise TraceError(f"{self.path}:{piece.first + len(piece) - 1}: this is no end of a trace")
        self.end = End(False, int(found[1]), found[2].decode(), int(found[3])) if found else End(True)
        return 1

    def _take(self, name, piece):
        """Reads the piece's lines of this name; how many there are. Lines of a dual are many, and only found."""
        lines = piece.named(name.encode())
        if name == "dual":
            self.parts[name].append(piece.offset + piece.starts[lines])
            return len(lines) + len(piece.named(b"d"))
        text = piece.text(lines, len(name) + 1)
        numbers = self._numbers(name, text)
        if numbers is None or len(numbers) != len(lines):
            raise TraceError(f"{self.path}:{self._bad_line(name, piece, lines)}: this line {name} isn't in form")
        self.parts[name].append(numbers)
        return len(lines)

    def _numbers(self, name, text):
        """The numbers of the lines `name` of a text, a row of the array for each; None where they aren't in form."""
        if name == "row":
            return parse_rows(text, self.header[0] == 2)
        if name in ("residual", "cost", "ball", "inverse"):
            numbers = large_integers(_without_words(name, text))
        else:
            numbers = integers(_without_words(name, text))
            if numbers is not None and (numbers == LARGEST).any():
                return None
        width = self._width(name)
        if numbers is None or numbers.size % width:
            return None
        return numbers.reshape(-1, width)

    def _width(self, name):
        counts = {"q": self.header[1], "v": self.header[2], "a": self.header[2], "step": 1, "residual": 1, "ball": 3}
        return counts.get(name, 2)

    def _bad_line(self, name, piece, lines):
        """The number of the first of these lines that isn't in form by itself; that of the first if none is."""
        for place in lines:
            numbers = self._numbers(name, piece.line(place)[len(name) + 1 :] + b"\n")
            if numbers is None or len(numbers) != 1:
                return piece.first + place
        return piece.first + lines[0]

    def _pass_over(self, piece, known):
        """Refuses a line that wasn't read."""
        if known != len(piece):
            names = [name.encode() for name in LINES + ("d",)]
            strange = np.setdiff1d(np.arange(len(piece)), np.concatenate([piece.named(name) for name in names]))
            place = strange[strange + piece.first > 1][0]
            word = piece.line(place).split(b" ")[0][:40].decode(errors="replace")
            raise TraceError(f"{self.path}:{piece.first + place}: '{word}' begins no line of a trace")

    def _joined(self):
        """The trace of all pieces, where its blocks are as many as its end tells."""
        blocks = {name: sum(map(len, part)) for name, part in self.parts.items() if name not in ("row", "x", *WISHED)}
        if self.end is None:
            raise TraceError(f"{self.path}: cut off{_after(blocks)}: it has no end line")
        parts = {name: np.concatenate(self.parts.pop(name)) for name in list(self.parts)}
        trace = Trace(self.path, self.header, self.end, parts)
        for name, count in blocks.items():
            if count != len(trace):
                raise TraceError(f"{self.path}: {count} lines {name} for {len(trace)} steps")
        if "step" in parts and (parts["step"][:, 0] != trace.steps).any():
            raise TraceError(f"{self.path}: its steps don't count from 1")
        for name in WISHED:
            if name in parts and len(parts[name]) not in (0, len(trace)):
                raise TraceError(f"{self.path}: some of its steps have a line {name}, and some have none")
        self._number_rows(trace, parts)
        self._count_separated(parts)
        return trace

    def _number_rows(self, trace, parts):
        if "row" in parts:
            if parts["rows"][:, 0].sum() != len(parts["row"]):
                raise TraceError(f"{self.path}: the lines rows tell other numbers of rows than stand there")
            parts["row"]["step"] = np.repeat(trace.steps, parts["rows"][:, 0])

    def _count_separated(self, parts):
        """Refuses lines x that aren't one for each row that isn't idle, in order."""
        if "x" not in parts:
            return
        is_told = len(parts.get("inverse", parts["x"])) > 0
        if len(parts["x"]) != is_told * (parts["rows"][:, 0] - parts["rows"][:, 1]).sum():
            raise TraceError(f"{self.path}: there are other lines x than rows that aren't idle")
        if is_told and "row" in parts:
            rows = parts["row"]["row"][~parts["row"]["idle"]]
            if (rows != parts["x"][:, 0]).any():
                raise TraceError(f"{self.path}: the lines x name other rows than those that aren't idle")


def _without_words(name, text):
    """The text of lines of this name with numbers in place of words."""
    if name == "rows":
        return text.replace(b" idle ", b" ")
    if name == "ball":
        return text.replace(b"none", b"-1 0 0")
    if name == "stop":
        text = text.replace(b"none", b"0 0")
        return text.replace(b"tolerance ", b"1 ").replace(b"limit ", b"2 ")
    return text


def _not_a_trace(line):
    """What a file that begins with this line is, where it is no trace."""
    if line.startswith(b"refused "):
        return f"no trace but a refusal: {line.decode(errors='replace')[:200]} (mjtools explain tells what to do)"
    if line.startswith((b"accepted ", b"rejected ")):
        return f"no trace but the verdict of mj check: {line.decode(errors='replace')[:200]} (see mjtools explain)"
    if line.startswith((b"job ", b"steps ")):
        return "no trace but a summary, as batch and bench write it"
    return "no trace of mj: its first line isn't like 'trace 1 nq=1 nv=1 steps=3'"


def _after(blocks):
    """Behind which step a trace without an end was cut, as far as lines were read."""
    return (
        f" in or after step {max(blocks.values())}" if blocks and max(blocks.values()) else " before its first step"
    )
