"""The lines `row` of a trace: constraints with their forces and boxes."""

import numpy as np

from .lines import integers

KINDS = ("low", "high", "tlow", "thigh", "contact", "equality", "friction")
"""What a row stands for: a joint's lower and upper limit, a tendon's, an edge of a contact, an equality, a joint's
friction. The field `kind` of a row is a place in this list."""

CONTACT = KINDS.index("contact")

ROW = np.dtype(
    [
        ("step", np.int32),
        ("row", np.int32),
        ("kind", np.int8),
        ("id", np.int32),
        ("edge", np.int8),
        ("idle", np.bool_),
        ("force", np.float64),
        ("lo", np.float64),
        ("hi", np.float64),
        ("low", np.float64),
        ("high", np.float64),
    ]
)
"""A row line. `step`, `row` and `id` count from 1; `id` is the joint, tendon, equality or contact of this step; `edge`
is 0 without friction and else 1 to 4. `force` in N or N m, within its box from `lo` to `hi`, and the bounds that any
force of this row must keep, from `low` to `high`, infinite where one is missing. An idle row has force 0 and no box
(nan)."""

NEWTON = 2.0**-20
NO_BOUND = 2**62


def parse_rows(text, is_bounded):
    """The row lines of a text without their first word, as ROW with step 0. None where a line isn't in form.

    `is_bounded` tells format 2, whose lines end with the row's bounds.
    """
    numbers, counts = _numbers(_without_words(text, is_bounded))
    if numbers is None:
        return None
    first = np.cumsum(counts) - counts
    if (counts < 3).any():
        return None
    kind = numbers[first + 1]
    has_edge = kind == CONTACT
    idle = counts == 3 + has_edge
    if not (idle | (counts == (8 if is_bounded else 6) + has_edge)).all():
        return None
    rows = np.zeros(len(counts), ROW)
    rows["row"], rows["kind"], rows["id"], rows["idle"] = numbers[first], kind, numbers[first + 2], idle
    rows["edge"][has_edge] = numbers[first[has_edge] + 3]
    _take_forces(rows, numbers, first + 3 + has_edge, is_bounded)
    return rows


def _without_words(text, is_bounded):
    """The text with numbers in place of words: a kind by its place in KINDS, a missing bound by NO_BOUND."""
    for code, name in enumerate(KINDS):
        text = text.replace(f" {name} ".encode(), b" %d " % code)
    text = text.replace(b" idle\n", b"\n")
    if is_bounded:
        text = text.replace(b" in - ", b" in %d " % -NO_BOUND).replace(b" -\n", b" %d\n" % NO_BOUND)
        text = text.replace(b" in ", b" ")
    return text


def _numbers(text):
    """All numbers of the text, and how many each line has. The first is None where the text has something else."""
    numbers = integers(text)
    marks = np.frombuffer(text, np.uint8)
    marks = marks[(marks == ord(" ")) | (marks == ord("\n"))]
    counts = np.diff(np.flatnonzero(marks == ord("\n")), prepend=-1)
    if numbers is not None and numbers.size != counts.sum():
        numbers = None
    return numbers, counts


def _take_forces(rows, numbers, at, is_bounded):
    """Fills in what stands from the places `at` on: force, box and, in format 2, bounds."""
    for place, name in enumerate(("force", "lo", "hi", "low", "high")):
        rows[name] = 0.0 if name == "force" else np.nan
        held = ~rows["idle"]
        if place < 3 or is_bounded:
            rows[name][held] = numbers[at[held] + place] * NEWTON
        else:
            rows[name][held] = 0.0 if name == "low" else np.inf
    rows["low"][rows["low"] == -NO_BOUND * NEWTON] = -np.inf
    rows["high"][rows["high"] == NO_BOUND * NEWTON] = np.inf
