"""The dual problem of one step, as `mj run --dual yes` prints it."""

from dataclasses import dataclass

import numpy as np

from .errors import TraceError


@dataclass(frozen=True)
class Dual:
    """The m rows of a dual in SI units, and `raw`: the integers of its d lines as they stand, a list for each row.

    row (m,): the row's number in its step. G (m, nv): the reduced rows, so that G G^T is A. R (m,): regularizers, 1/kg.
    b (m,): right sides, m/s^2. low, high (m,): what each force must keep, N or N m, infinite where there is no bound.
    """

    row: np.ndarray
    R: np.ndarray
    b: np.ndarray
    low: np.ndarray
    high: np.ndarray
    G: np.ndarray
    raw: list


def read_dual(path, offset, nv, is_bounded):
    """The dual whose first line begins at this byte of the trace."""
    with open(path, "rb") as file:
        file.seek(offset)
        words = file.readline().split()
        if words[:1] != [b"dual"] or len(words) < 3:
            raise TraceError(f"{path}: no dual stands where one was: the file has changed")
        lines = [file.readline().split() for _ in range(int(words[1]))]
    width = nv + (6 if is_bounded else 4)
    if any(len(line) != width or line[0] != b"d" for line in lines):
        raise TraceError(f"{path}: the dual at byte {offset} isn't in form")
    return _dual([[None if word == b"-" else int(word) for word in line[1:]] for line in lines], nv, is_bounded)


def _dual(raw, nv, is_bounded):
    def column(place, scale, missing=np.nan):
        """The numbers at this place of all lines, in units of 2^-scale; `missing` where a line has none."""
        return np.array([missing if line[place] is None else line[place] / 2**scale for line in raw], float)

    m = len(raw)
    low, high = np.zeros(m), np.full(m, np.inf)
    if is_bounded:
        low, high = column(3, 20, -np.inf), column(4, 20, np.inf)
    rows = np.array([line[0] for line in raw], np.int64)
    reduced = np.array([line[-nv:] for line in raw], float).reshape(m, nv) / 2**24
    return Dual(rows, column(1, 48), column(2, 32), low, high, reduced, raw)
