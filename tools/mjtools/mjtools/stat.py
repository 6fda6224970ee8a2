"""A trace in figures: its end, its rows and sweeps, and how far its forces can be from the best."""

import numpy as np

from .contacts import trace_contacts

MOST_PAIRS = 8
USUAL_GAP = 1e-8
POOR_GAP = 1e-7
"""A largest gap relative to the cost up to the first is usual where the solver converges (about 5e-10), and one from
the second on is poor (about 8e-7): it wants more iterations or a smaller tolerance."""


def verdict(trace):
    """How good the forces are, in words: lines. The trace has the lines rows, stop and cost."""
    if not len(trace) or not trace.rows.any():
        return ["No step had a constraint, so there were no forces to find."]
    worst = int(np.argmax(trace.relative_gap))
    ratio, step = trace.relative_gap[worst], worst + 1
    told = [f"The largest gap relative to its cost is {ratio:.2g}, in step {step}: {_judged(ratio)}"]
    late = int(trace.at_limit.sum())
    if late:
        told.append(f"The sweeps ran out in {late} of {len(trace)} steps.")
    if ratio > USUAL_GAP:
        told.append(
            "With contacts 300 to 1,000 iterations are usual (option.iterations). option.tolerance is absolute: it is "
            "compared with the drop of twice the cost in one sweep."
        )
    return told


def _judged(ratio):
    if ratio <= USUAL_GAP:
        return "as good as the best (5e-10 is usual)."
    if ratio < POOR_GAP:
        return "more than usual (5e-10), still small."
    return "poor (5e-10 is usual, 8e-7 poor)."


def figures(trace, model=None):
    """The figures of a trace as pairs of a name and a text, positions and velocities by the model's names if given."""
    n, end = len(trace), trace.end
    seconds = f" ({n * model.timestep:.6g} s)" if model else ""
    pairs = [
        ("trace", f"{trace.path}, format {trace.format}, nq={trace.nq} nv={trace.nv}"),
        ("steps", f"{n} of {trace.asked}{seconds}"),
        ("end", "done" if end.is_done else f"{end.kind} {end.index} out of range in step {end.step}"),
    ]
    if n:
        pairs += _solver(trace) + _gaps(trace) + _errors(trace) + _asked(trace) + _motion(trace, model)
    if n and model and len(trace.rows_of("contact")):
        pairs += _touching(trace, model)
    return pairs


def _solver(trace):
    rows, sweeps = trace.rows, trace.sweeps
    most = int(np.argmax(rows))
    stops = np.bincount(trace.raw("stop")[:, 0], minlength=3)
    return [
        (
            "rows",
            f"at most {rows[most]} (step {most + 1}), {rows.mean():.3g} on average, {trace.idle.sum()} idle in all",
        ),
        ("sweeps", f"at most {sweeps.max()}, {sweeps.sum()} in all"),
        ("stops", f"{stops[1]} at the tolerance, {stops[2]} at the limit, {stops[0]} without a row"),
    ]


def _gaps(trace):
    largest, relative = int(np.argmax(trace.gap)), int(np.argmax(trace.relative_gap))
    return [
        ("largest gap", f"{trace.gap[largest]:.3g} N m/s^2 (step {largest + 1}), its cost {trace.cost[largest]:.6g}"),
        ("gap / cost", f"at most {trace.relative_gap[relative]:.2g} (step {relative + 1})"),
    ]


def _errors(trace):
    worst = int(np.argmax(trace.residual))
    return [
        ("residual", f"at most {trace.residual[worst]:.2g} N or N m (step {worst + 1})"),
        ("radii", f"mass matrix at most {trace.mass_radius.max():.2g}, bias forces {trace.bias_radius.max():.2g} N"),
    ]


def _asked(trace):
    """What a run with --ball yes and one of `mj inverse` tell beside."""
    pairs = []
    if trace.tells("ball"):
        found = ~np.isnan(trace.ball_radius)
        told = "none in any step"
        if found.any():
            worst = int(np.nanargmax(trace.ball_radius))
            radius = trace.ball_radius[worst]
            told = f"the acceleration is within {radius:.2g} of its rounded system's (step {worst + 1})"
            told += f", none in {(~found).sum()} steps" * bool((~found).any())
        pairs.append(("ball", told))
    if trace.tells("inverse"):
        worst, last = int(np.argmax(trace.inverse_gap)), int(np.argmax(trace.discrepancy))
        pairs.append(("inverse gap", f"at most {trace.inverse_gap[worst]:.3g} N or N m (step {worst + 1})"))
        pairs.append(("discrepancy", f"at most {trace.discrepancy[last]:.3g} N or N m (step {last + 1})"))
    return pairs


def _motion(trace, model):
    names = {
        "position": model.position_names if model else [f"q{i}" for i in range(1, trace.nq + 1)],
        "velocity": model.velocity_names if model else [f"v{i}" for i in range(1, trace.nv + 1)],
    }
    pairs = []
    for what, values in (("position", trace.q), ("velocity", trace.v), ("acceleration", trace.a)):
        step, place = np.unravel_index(np.argmax(np.abs(values)), values.shape)
        name = names["position" if what == "position" else "velocity"][place]
        pairs.append((f"largest {what}", f"{values[step, place]:.6g} of {name} (step {step + 1})"))
    return pairs


def _touching(trace, model):
    """Which geoms touched, those in most steps first."""
    found = trace_contacts(model, trace)
    pairs = found["geom1"].astype(np.int64) << 8 | found["geom2"]
    steps = np.unique(pairs << 20 | found["step"])
    kinds, firsts, counts = np.unique(steps >> 20, return_index=True, return_counts=True)
    told = []
    for place in np.argsort(-counts, kind="stable")[:MOST_PAIRS]:
        names = [_title(model, model.geoms[number - 1]) for number in (kinds[place] >> 8, kinds[place] & 255)]
        first = steps[firsts[place]] & (1 << 20) - 1
        told.append(("touching", f"{names[0]}, {names[1]}: {counts[place]} steps from step {first} on"))
    if len(kinds) > MOST_PAIRS:
        told.append(("touching", f"and {len(kinds) - MOST_PAIRS} other pairs in fewer steps"))
    return told


def _title(model, geom):
    """A geom's name, or its type and its body."""
    body = model.bodies[geom.body - 1].name if geom.body else "the world"
    return geom.name or f"{geom.type} of {body}"
