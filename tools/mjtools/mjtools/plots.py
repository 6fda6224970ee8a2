"""A picture of a run: positions, velocities, forces with their boxes, gap and cost, rows and sweeps; balls and separated
forces where the run told them."""

from pathlib import Path

import matplotlib

matplotlib.use("Agg")

import numpy as np  # noqa: E402
from matplotlib import pyplot  # noqa: E402

from .errors import Unusable  # noqa: E402
from .rows import KINDS  # noqa: E402
from .writing import whole_file  # noqa: E402

MOST_POINTS = 4000
MOST_LINES = 8
COLOURS = ["#3b6fb6", "#d1495b", "#3a8f5c", "#8d6a9f", "#e08e2b", "#4aa3a2", "#7a5c3e", "#5f6b78"]
GREY = "#c4c9cf"
STYLE = {
    "axes.grid": True,
    "axes.spines.right": False,
    "axes.spines.top": False,
    "axes.edgecolor": "#8a9099",
    "axes.prop_cycle": pyplot.cycler(color=COLOURS),
    "grid.color": "#e6e8eb",
    "font.size": 9,
    "legend.frameon": False,
    "lines.linewidth": 1.2,
}


def plot(trace, path, model=None):
    """Draws a Trace into a picture file (PNG, SVG, PDF by the name's end), over seconds where the model is given."""
    kind = str(path).rpartition(".")[2].lower()
    if kind not in ("png", "svg", "pdf"):
        raise Unusable(f"{path}: a picture is a .png, .svg or .pdf")
    with pyplot.rc_context(STYLE):
        figure = _figure(trace, model)
        with whole_file(path) as file:
            figure.savefig(file, format=kind, dpi=90)
        pyplot.close(figure)


def _figure(trace, model):
    """The figure: where no step had a row, accelerations stand in place of forces, cost and solver. A panel more shows
    the radii of balls and the gaps of separated forces, where the trace tells them."""
    has_rows = bool(trace.rows.any())
    has_errors = len(trace) > 0 and (trace.tells("ball") or trace.tells("inverse"))
    count = (5 if has_rows else 3) + has_errors
    figure, axes = pyplot.subplots(count, 1, figsize=(9, 1 + 2 * count), sharex=True, layout="constrained")
    time = trace.steps * (model.timestep if model else 1)
    seen = _seen(len(trace))
    velocities = _names(model, "velocity", trace.nv)
    _draw_states(axes[0], time[seen], trace.q[seen], _names(model, "position", trace.nq), "position [m, rad]")
    _draw_limits(axes[0], trace, model)
    _draw_states(axes[1], time[seen], trace.v[seen], velocities, "velocity [m/s, rad/s]")
    if has_rows:
        _draw_forces(axes[2], trace, time, model)
        _draw_gap(axes[3], trace, time, seen)
        _draw_solver(axes[4], trace, time, seen)
    else:
        _draw_states(axes[2], time[seen], trace.a[seen], velocities, "acceleration [m/s², rad/s²]")
    if has_errors:
        _draw_errors(axes[-1], trace, time, seen)
    axes[-1].set_xlabel("time [s]" if model else "step")
    figure.suptitle(_title(trace, seen), fontsize=10)
    return figure


def _seen(n):
    """Places of at most MOST_POINTS steps, evenly apart, the last among them."""
    return np.arange(n - 1, -1, -max(1, -(-n // MOST_POINTS)))[::-1]


def _title(trace, seen):
    end = "" if trace.end.is_done else f", then {trace.end.kind} {trace.end.index} out of range"
    every = f", one of {len(trace) // len(seen)} drawn" if len(seen) and len(trace) // len(seen) > 1 else ""
    return f"{Path(trace.path).name}: {len(trace)} of {trace.asked} steps{end}{every}"


def _names(model, what, count):
    if model:
        return model.position_names if what == "position" else model.velocity_names
    return [f"{'q' if what == 'position' else 'v'}{i}" for i in range(1, count + 1)]


def _moving(values):
    """Which columns move most, at most MOST_LINES of them, in their order; the first if none moves."""
    if not len(values):
        return []
    spans = np.ptp(values, axis=0)
    most = np.argsort(-spans, kind="stable")[:MOST_LINES]
    return sorted(most[spans[most] > 1e-4 * spans.max()]) or [0]


def _draw_states(axis, time, values, names, label):
    """Columns over time: those that move most with colour and name, the others grey."""
    named = _moving(values)
    for column in range(values.shape[1]):
        if column not in named:
            axis.plot(time, values[:, column], color=GREY, linewidth=0.7)
    for column in named:
        axis.plot(time, values[:, column], label=names[column])
    if values.shape[1] > len(named):
        axis.plot([], [], color=GREY, linewidth=0.7, label=f"{values.shape[1] - len(named)} that move less")
    _finish(axis, label)


def _draw_limits(axis, trace, model):
    """Dashed lines where the drawn positions have their limits, in their colours; limits far off stay out."""
    if not model or not len(trace):
        return
    least, most = axis.get_ylim()
    colours = {column: COLOURS[place] for place, column in enumerate(_moving(trace.q[_seen(len(trace))]))}
    for joint in model.joints:
        if joint.range and joint.qadr in colours:
            for end in joint.range:
                axis.axhline(end, color=colours[joint.qadr], linestyle=(0, (4, 4)), linewidth=0.7)
    lower, upper = axis.get_ylim()
    axis.set_ylim(max(lower, 2 * least - most), min(upper, 2 * most - least))


def _draw_forces(axis, trace, time, model):
    """The rows with the greatest forces over time, each with its box as a band, and its separated force dotted."""
    rows = trace.row_lines[~trace.row_lines["idle"]]
    separated = trace.separated if trace.tells("inverse") else np.full(len(rows), np.nan)
    keys = rows["kind"].astype(np.int64) << 48 | rows["id"].astype(np.int64) << 8 | rows["edge"]
    kinds, places = np.unique(keys, return_inverse=True)
    greatest = np.zeros(len(kinds))
    np.maximum.at(greatest, places, np.abs(rows["force"]))
    drawn = np.argsort(-greatest, kind="stable")[:MOST_LINES]
    for place in drawn:
        _draw_row(axis, rows[places == place], separated[places == place], time, model)
    if len(kinds) > len(drawn):
        axis.plot([], [], " ", label=f"and {len(kinds) - len(drawn)} smaller")
    _finish(axis, "force and box [N, N m]")


def _draw_row(axis, rows, separated, time, model):
    """One row's force; where the row doesn't stand the line is broken."""
    filled = np.full((len(time), 4), np.nan)
    for place, values in enumerate((rows["force"], rows["lo"], rows["hi"], separated)):
        filled[rows["step"] - 1, place] = values
    seen = _seen(len(time)) if len(rows) > MOST_POINTS else np.arange(len(time))
    line = axis.plot(time[seen], filled[seen, 0], label=_row_name(rows[0], model))[0]
    axis.fill_between(time[seen], filled[seen, 1], filled[seen, 2], color=line.get_color(), alpha=0.25, linewidth=0)
    axis.plot(time[seen], filled[seen, 3], ":", color=line.get_color(), linewidth=1.0)


def _row_name(row, model):
    """What a row stands for, by the model's names where it has them."""
    kind, number = KINDS[row["kind"]], row["id"]
    if kind == "contact":
        return f"contact {number}" + (f" edge {row['edge']}" if row["edge"] else "")
    names = {}
    if model:
        joints, tendons = [joint.name for joint in model.joints], model.tendons
        names = {"low": joints, "high": joints, "friction": joints, "tlow": tendons, "thigh": tendons}
    return f"{kind} {names[kind][number - 1] or number}" if kind in names else f"{kind} {number}"


def _draw_gap(axis, trace, time, seen):
    """The cost's size and the gap on a logarithmic scale; zeros are left out."""
    for values, label in ((np.abs(trace.cost), "|cost|"), (trace.gap, "gap")):
        shown = np.where(values[seen] > 0, values[seen], np.nan)
        axis.plot(time[seen], shown, label=label)
    axis.set_yscale("log")
    _finish(axis, "cost [N m/s²]")


def _draw_solver(axis, trace, time, seen):
    axis.plot(time[seen], trace.rows[seen], label="rows", drawstyle="steps-mid")
    axis.plot(time[seen], trace.sweeps[seen], label="sweeps", drawstyle="steps-mid")
    late = seen[trace.at_limit[seen]]
    axis.plot(time[late], trace.sweeps[late], ".", markersize=3, label="sweeps ran out", color=COLOURS[4])
    _finish(axis, "rows, sweeps")


def _draw_errors(axis, trace, time, seen):
    """The radii of the balls, or the gaps and discrepancies of the separated forces, on a logarithmic scale."""
    if trace.tells("ball"):
        lines = [(trace.ball_radius, "radius of the ball")]
        label = "a at most off by [m/s², rad/s²]"
    else:
        lines = [(trace.inverse_gap, "gap"), (trace.discrepancy, "discrepancy")]
        label = "separated forces [N, N m]"
    for values, name in lines:
        zeros, missing = int((values == 0).sum()), int(np.isnan(values).sum())
        name += f", 0 in {zeros} steps" * bool(zeros) + f", none in {missing}" * bool(missing)
        shown = np.where(values[seen] > 0, values[seen], np.nan)
        axis.plot(time[seen], shown, ".-", markersize=3, label=name)
        if np.isfinite(shown).any():
            axis.set_yscale("log")
    _finish(axis, label)


def _finish(axis, label):
    axis.set_ylabel(label)
    if axis.get_legend_handles_labels()[1]:
        axis.legend(loc="upper left", bbox_to_anchor=(1.0, 1.0), fontsize=8, handlelength=1.4)
