"""Traces as tables of comma-separated values in SI units."""

import numpy as np

from .rows import KINDS
from .writing import whole_file

BLOCK = 10000


def write_states(trace, path, model=None):
    """A line a step: step, time (with a model), q, v and a of each joint, rows, sweeps, cost, bound, gap, residual;
    what balls and separated forces tell where the trace has them."""
    positions = model.position_names if model else range(1, trace.nq + 1)
    velocities = model.velocity_names if model else range(1, trace.nv + 1)
    names = ["step"] + ["time"] * bool(model)
    names += [f"q {name}" for name in positions] + [f"{letter} {name}" for letter in "va" for name in velocities]
    columns = [trace.steps] + ([trace.steps * model.timestep] if model else [])
    columns += [*trace.q.T, *trace.v.T, *trace.a.T]
    told = ["rows", "sweeps", "cost", "bound", "gap", "residual"]
    told += ["ball_low", "ball_radius"] * trace.tells("ball") + ["inverse_gap", "discrepancy"] * trace.tells("inverse")
    for name in told:
        names.append(name)
        columns.append(getattr(trace, name))
    _write(path, names, columns)


def write_rows(trace, path):
    """A line a row line: step, row, kind, id, edge, idle, force, lo, hi, low, high, and the separated force where the
    trace has one (nan of an idle row)."""
    rows = trace.row_lines
    columns = [rows[name] for name in rows.dtype.names]
    columns[rows.dtype.names.index("kind")] = [KINDS[kind] for kind in rows["kind"]]
    names = list(rows.dtype.names)
    if trace.tells("inverse"):
        names.append("separated")
        columns.append(np.full(len(rows), np.nan))
        columns[-1][~rows["idle"]] = trace.separated
    _write(path, names, columns)


def _write(path, names, columns):
    """Numbers are written as Python writes them: they read back the same."""
    count = len(columns[0])
    with whole_file(path, "w") as file:
        file.write(",".join(names) + "\n")
        for start in range(0, count, BLOCK):
            parts = [_texts(column[start : start + BLOCK]) for column in columns]
            file.writelines(",".join(line) + "\n" for line in zip(*parts, strict=True))


def _texts(column):
    return map(str, column if isinstance(column, list) else column.tolist())
