"""Where two traces differ first, and how the differences grow."""

from dataclasses import dataclass

import numpy as np

from .trace import WISHED

QUANTITIES = {
    "q": 2.0**-32,
    "v": 2.0**-32,
    "a": 2.0**-32,
    "residual": 2.0**-72,
    "radius": 1.0,
    "rows": 1.0,
    "stop": 1.0,
    "cost": 2.0**-88,
    "ball": 1.0,
    "inverse": 1.0,
}
"""The numbers of a block that are compared, and their units; radii, rows, sweeps, balls and what separated forces tell
are compared as they stand."""


@dataclass(frozen=True)
class Difference:
    """Where a quantity differs first, `step` and `number` from 1, and the largest difference of a number of it there
    (`first`), in the last common step (`last`) and at all (`largest`, in step `worst`); SI units."""

    quantity: str
    step: int
    number: int
    first: float
    last: float
    largest: float
    worst: int

    @property
    def doubling(self):
        """In how many steps the difference doubled, on average from the first to the largest; None where it didn't."""
        if self.worst <= self.step or self.largest <= self.first:
            return None
        return (self.worst - self.step) / np.log2(self.largest / self.first)


def differences(one, other):
    """What differs in the common steps of two Traces of the same sizes: Differences in the order of the lines."""
    n = min(len(one), len(other))
    found = [
        _difference(name, unit, one.raw(name)[:n], other.raw(name)[:n])
        for name, unit in QUANTITIES.items()
        if name not in WISHED or one.tells(name) and other.tells(name)
    ]
    return [difference for difference in found if difference] + _row_difference(one, other, n)


def _difference(name, unit, one, other):
    apart = np.abs(one - other)
    steps = np.flatnonzero((apart != 0).any(axis=1))
    if not steps.size:
        return None
    first = steps[0]
    number = np.flatnonzero(apart[first] != 0)[0]
    sizes = (apart.max(axis=1) * unit).astype(float)
    worst = int(np.argmax(sizes))
    return Difference(name, int(first) + 1, int(number) + 1, sizes[first], sizes[-1], sizes[worst], worst + 1)


def _row_difference(one, other, n):
    """The first row line that differs; its force's difference where both lines stand for the same constraint."""
    mine, theirs = (rows[rows["step"] <= n] for rows in (one.row_lines, other.row_lines))
    least = min(len(mine), len(theirs))
    same = np.ones(least, bool)
    for name in mine.dtype.names:
        a, b = mine[name][:least], theirs[name][:least]
        same &= (a == b) | (np.isnan(a) & np.isnan(b))
    places = np.flatnonzero(~same)
    if not places.size:
        if len(mine) == len(theirs):
            return []
        longer = mine if len(mine) > least else theirs
        return [Difference("row", int(longer["step"][least]), int(longer["row"][least]), np.nan, np.nan, np.nan, 0)]
    sources = all(
        (mine[name][:least] == theirs[name][:least]).all() for name in ("step", "row", "kind", "id", "edge")
    )
    apart = np.abs(mine["force"][:least] - theirs["force"][:least])
    first, worst = places[0], int(np.argmax(apart))
    step, number = int(mine["step"][first]), int(mine["row"][first])
    if not sources or len(mine) != len(theirs):
        return [Difference("row", step, number, float(apart[first]), np.nan, np.nan, 0)]
    return [
        Difference(
            "row", step, number, float(apart[first]), float(apart[-1]), float(apart[worst]), int(mine["step"][worst])
        )
    ]


def told(one, other, model=None):
    """Lines that tell how two Traces differ; none where they don't."""
    heads = [(trace.format, trace.nq, trace.nv) for trace in (one, other)]
    if heads[0] != heads[1]:
        texts = ["format {} nq={} nv={}".format(*head) for head in heads]
        return [f"they aren't of one model: {texts[0]} and {texts[1]}"]
    lines = []
    if (len(one), one.asked) != (len(other), other.asked):
        lines.append(f"steps: {len(one)} of {one.asked} and {len(other)} of {other.asked}")
    if one.end != other.end:
        lines.append(f"end: {_end(one)} and {_end(other)}")
    for name in ("ball", "inverse"):
        if one.tells(name) != other.tells(name) and len(one) and len(other):
            lines.append(f"{name}: {'only the first' if one.tells(name) else 'only the second'} has such lines")
    found = differences(one, other)
    if found:
        first = min(found, key=lambda difference: difference.step)
        lines.append(f"first: step {first.step}, {first.quantity} {_name(first, model)}")
    return lines + [_line(difference, model) for difference in found]


def _end(trace):
    end = trace.end
    return "done" if end.is_done else f"{end.kind} {end.index} out of range in step {end.step}"


def _name(difference, model):
    names = {"q": model.position_names, "v": model.velocity_names, "a": model.velocity_names} if model else {}
    names = names.get(difference.quantity)
    return names[difference.number - 1] if names else str(difference.number)


def _line(found, model):
    text = f"{found.quantity:9} from step {found.step}, number {_name(found, model)}: {found.first:.3g}"
    if not found.worst:
        return text + "; rows stand for other constraints from there on"
    text += f", at most {found.largest:.3g} (step {found.worst}), {found.last:.3g} in the last step"
    return text + (f"; doubles in {found.doubling:.3g} steps" if found.doubling else "")
