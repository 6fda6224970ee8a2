"""The reader, against numbers worked by hand and those of the documents."""

import mjtools
import numpy as np
import pytest
from conftest import BALL, BALLS, EARLY, FRICTION, INVERSE, LIMIT, SLIDE
from mjtools import lines


def test_states_are_in_metres_and_seconds(kept):
    trace = mjtools.read(kept("run.trace", SLIDE))
    assert (trace.format, trace.nq, trace.nv, trace.asked, len(trace)) == (1, 1, 1, 3, 3)
    assert trace.q.tolist() == [[-0.5], [-1.5], [-3.0]]
    assert trace.v.tolist() == [[-2.0], [-4.0], [-6.0]]
    assert trace.a.tolist() == [[-8.0]] * 3
    assert trace.steps.tolist() == [1, 2, 3]
    assert trace.raw("q").tolist() == [[-2147483648], [-6442450944], [-12884901888]]
    assert trace.end == mjtools.End(True)
    assert trace.gap.tolist() == [0, 0, 0] and trace.relative_gap.tolist() == [0, 0, 0]


def test_a_ball_at_rest(kept):
    trace = mjtools.read(kept("run.trace", BALL))
    rows = trace.row_lines
    assert rows["force"].sum() == pytest.approx(9.81, abs=1e-4)
    assert (
        rows["force"][0] == 2571753 / 2**20
        and rows["lo"][0] == 2571211 / 2**20
        and rows["hi"][0] == 2571805 / 2**20
    )
    assert [mjtools.KINDS[kind] for kind in rows["kind"]] == ["contact"] * 4
    assert (
        rows["edge"].tolist() == [1, 2, 3, 4] and rows["id"].tolist() == [1] * 4 and rows["step"].tolist() == [1] * 4
    )
    assert rows["low"].tolist() == [0] * 4 and rows["high"].tolist() == [np.inf] * 4
    assert trace.cost[0] == pytest.approx(-106.15642567895, abs=1e-11)
    assert trace.bound[0] == pytest.approx(-106.15642571197, abs=1e-11)
    assert trace.sweeps.tolist() == [53] and trace.at_limit.tolist() == [False]
    assert trace.mass_radius[0] == 2 / 2**40 and trace.bias_radius[0] == 2 / 2**32


def test_a_gap_is_taken_before_it_is_rounded(kept):
    trace = mjtools.read(kept("run.trace", BALL))
    exact = -32853822443848167755936561746 + 32853822454067129288963096528
    assert trace.gap[0] == exact / 2**88
    assert trace.gap[0] == pytest.approx(3.302e-8, rel=1e-3)
    assert trace.gap[0] != trace.cost[0] - trace.bound[0]
    assert trace.relative_gap[0] == pytest.approx(3.302e-8 / 106.156, rel=1e-3)
    assert trace.raw("cost")[0].tolist() == [-32853822443848167755936561746, -32853822454067129288963096528]


def test_a_dual_gives_back_its_cost(kept):
    trace = mjtools.read(kept("run.trace", LIMIT))
    dual = trace.dual(1)
    assert (dual.R.tolist(), dual.b.tolist(), dual.G.tolist()) == ([1.0], [-9.0], [[1.0]])
    (row, regularizer, b, g), f = dual.raw[0], 4718592
    assert row == 1
    assert (g * f) ** 2 + regularizer * f * f + 2**37 * b * f == trace.raw("cost")[0, 0]
    assert trace.rows_of("low")["force"].tolist() == [4.5]
    for step in (0, 2, -1):
        with pytest.raises(IndexError):
            trace.dual(step)
    assert trace.rows_of("high").size == 0


def test_format_2_has_bounds(kept):
    trace = mjtools.read(kept("run.trace", FRICTION))
    equality, friction = trace.row_lines
    assert (equality["force"], equality["low"], equality["high"]) == (4, -np.inf, np.inf)
    assert (friction["force"], friction["low"], friction["high"]) == (2, -2, 2)
    dual = trace.dual(1)
    assert dual.low.tolist() == [-np.inf, -2] and dual.high.tolist() == [np.inf, 2]
    assert dual.b.tolist() == [-8, -8] and dual.row.tolist() == [1, 2]


def test_idle_rows_have_no_force(kept):
    text = BALL.replace("rows 4 idle 0", "rows 4 idle 1").replace(
        "row 2 contact 1 2 2571753 2571349 2571943", "row 2 contact 1 2 idle"
    )
    rows = mjtools.read(kept("run.trace", text)).row_lines
    assert rows["idle"].tolist() == [False, True, False, False]
    assert rows["force"][1] == 0 and np.isnan(rows["lo"][1]) and np.isnan(rows["high"][1])
    assert rows["edge"].tolist() == [1, 2, 3, 4] and rows["force"][2] == 2571512 / 2**20


def test_joints_and_tendons_have_no_edge(kept):
    text = LIMIT.replace("row 1 low 1 4718592", "row 1 thigh 12 4718592")
    row = mjtools.read(kept("run.trace", text)).row_lines[0]
    assert (mjtools.KINDS[row["kind"]], row["id"], row["edge"], row["force"]) == ("thigh", 12, 0, 4.5)


def test_an_early_end(kept):
    trace = mjtools.read(kept("run.trace", EARLY))
    assert trace.end == mjtools.End(False, 4, "Position", 1)
    assert len(trace) == 3 and trace.asked == 20


def test_no_steps(kept):
    trace = mjtools.read(kept("run.trace", "trace 1 nq=2 nv=2 steps=0\nend done\n"))
    assert len(trace) == 0 and trace.q.shape == (0, 2) and trace.row_lines.size == 0


def test_numbers_past_64_bits(kept):
    large = 2**100 + 1
    trace = mjtools.read(kept("run.trace", SLIDE.replace("residual 0", f"residual {large}", 1)))
    assert trace.raw("residual")[:, 0].tolist() == [large, 0, 0]
    assert trace.residual[0] == 2.0**28


@pytest.mark.parametrize(
    "text", [SLIDE, BALL, LIMIT, FRICTION, EARLY], ids=["slide", "ball", "limit", "friction", "early"]
)
@pytest.mark.parametrize("size", [80, 97, 150, 400])
def test_pieces_dont_matter(kept, monkeypatch, text, size):
    path = kept("run.trace", text)
    whole = mjtools.read(path)
    monkeypatch.setattr(lines, "PIECE", size)
    parted = mjtools.read(path)
    for name in ("step", "q", "v", "a", "residual", "radius", "rows", "stop", "cost", "dual"):
        assert whole.raw(name).tolist() == parted.raw(name).tolist()
    assert whole.row_lines.tobytes() == parted.row_lines.tobytes()
    assert whole.end == parted.end


@pytest.mark.parametrize("text", [BALL, FRICTION], ids=["ball", "friction"])
def test_each_beginning_of_a_trace_is_refused(kept, text):
    for length in range(len(text)):
        path = kept("run.trace", text[:length])
        with pytest.raises(mjtools.TraceError) as fault:
            mjtools.read(path)
        assert str(fault.value).startswith(str(path)) and "\n" not in str(fault.value)


def test_some_lines_alone(kept):
    path = kept("run.trace", BALL)
    trace = mjtools.read(path, only="q")
    assert trace.q.tolist() == mjtools.read(path).q.tolist()
    with pytest.raises(AttributeError, match="weren't read"):
        _ = trace.v
    assert mjtools.read(path, only=("row",)).row_lines["step"].tolist() == [1] * 4
    with pytest.raises(ValueError, match="names of lines"):
        mjtools.read(path, only="p")


def test_balls(kept):
    trace = mjtools.read(kept("run.trace", BALLS))
    assert trace.tells("ball") and not trace.tells("inverse")
    assert trace.ball_radius[[0, 2]].tolist() == [0, 2] and np.isnan(trace.ball_radius[1])
    assert trace.ball_low[0] == 0.5 and np.isnan(trace.ball_low[1]) and trace.ball_low[2] == 137438953366 / 2**40
    assert trace.raw("ball").tolist() == [[39, 549755813888, 0], [-1, 0, 0], [37, 137438953366, 8589934592]]
    assert mjtools.read(kept("run.trace", BALLS), only="ball").ball_radius[0] == 0
    large = BALLS.replace(" 8589934592\nend", f" {2**120}\nend")
    assert mjtools.read(kept("large.trace", large)).ball_radius[2] == 2.0**88


def test_separated_forces(kept):
    trace = mjtools.read(kept("run.trace", INVERSE))
    assert trace.inverse_gap.tolist() == [1] and trace.discrepancy.tolist() == [1]
    assert trace.separated.tolist() == [5, 2] and trace.raw("x").tolist() == [[1, 5242880], [2, 2097152]]
    assert mjtools.read(kept("run.trace", INVERSE), only="x").separated.tolist() == [5, 2]


def test_what_a_run_was_not_asked_for(kept):
    trace = mjtools.read(kept("run.trace", LIMIT))
    for name, wish in (("ball_radius", "--ball yes"), ("inverse_gap", "mj inverse"), ("separated", "mj inverse")):
        with pytest.raises(mjtools.TraceError, match=wish):
            getattr(trace, name)


@pytest.mark.parametrize(
    "text, old, new, why",
    [
        ("balls", "ball none\n", "", "some of its steps have a line ball"),
        ("balls", "ball none", "ball some", ":21: this line ball isn't in form"),
        ("balls", "ball none", "ball 1 2", ":21: this line ball isn't in form"),
        ("balls", "ball none", "ball none\nball none", "some of its steps"),
        ("inverse", "inverse 1048576 4722366482869645213696\n", "", "other lines x"),
        ("inverse", "x 2 2097152\n", "", "other lines x"),
        ("inverse", "x 1 5242880\nx 2 2097152\n", "", "other lines x"),
        ("inverse", "x 2 2097152", "x 3 2097152", "name other rows"),
        ("inverse", "x 2 2097152", "x 2", "line x isn't in form"),
        ("slide", "end done", "y 1 2\nend done", "'y' begins no line"),
    ],
)
def test_other_lines_that_are_amiss(kept, text, old, new, why):
    whole = {"balls": BALLS, "inverse": INVERSE, "slide": SLIDE}[text]
    assert old in whole
    with pytest.raises(mjtools.TraceError, match=why):
        mjtools.read(kept("run.trace", whole.replace(old, new, 1)))


@pytest.mark.parametrize(
    "old, new, line, why",
    [
        ("v -17179869184", "v -17179869184 5", 13, "line v"),
        ("v -17179869184", "v", 13, "'v'"),
        ("v -17179869184", "v 1.5", 13, "line v"),
        ("v -17179869184", "v 9223372036854775808", 13, "line v"),
        ("stop none\ncost 0 0\nstep 2", "stop never\ncost 0 0\nstep 2", 9, "line stop"),
        ("residual 0", "residues 0", 6, "residues"),
        ("radius 0 0", "radius 0", 7, "line radius"),
        ("step 2\n", "trace 1 nq=1 nv=1 steps=3\nstep 2\n", 11, "'trace'"),
        ("step 2\n", "end done\nstep 2\n", 11, "'end'"),
    ],
)
def test_a_damaged_line_is_told(kept, old, new, line, why):
    path = kept("run.trace", SLIDE.replace(old, new, 1))
    with pytest.raises(mjtools.TraceError) as fault:
        mjtools.read(path)
    assert str(fault.value).startswith(f"{path}:{line}: ") and why in str(fault.value)


@pytest.mark.parametrize(
    "row",
    [
        "row 1 contact 1 4718592 4718592",
        "row 1 low 1 4718592 4718592",
        "row 1 low 1 4718592 4718592 4718592 7",
        "row 1 lower 1 4718592 4718592 4718592",
        "row 1",
    ],
)
def test_a_damaged_row_is_told(kept, row):
    path = kept("run.trace", LIMIT.replace("row 1 low 1 4718592 4718592 4718592", row))
    with pytest.raises(mjtools.TraceError, match=":9: "):
        mjtools.read(path)


@pytest.mark.parametrize(
    "text, why",
    [
        ("", "empty"),
        ("[option]\ntimestep = 1\n", "no trace of mj"),
        ("refused model FloatValue option.timestep\n", "refusal: refused model FloatValue option.timestep"),
        ("job 1\nsteps 3 of 3\n", "summary"),
        ("rejected 9 Box\n", "verdict of mj check: rejected 9 Box"),
        ("accepted 3\n", "verdict"),
        ("trace 3 nq=1 nv=1 steps=0\nend done\n", "format 3"),
        ("trace 1 nq=999 nv=1 steps=0\nend done\n", "counts"),
        (SLIDE + "step 4\n", "'end' begins no line"),
        (SLIDE.replace("end done", "end soon"), "no end of a trace"),
        (SLIDE.replace("step 3\n", "step 7\n"), "count from 1"),
        (SLIDE.replace("steps=3", "steps=4"), "3 lines step for 4 steps"),
        (BALL.replace("rows 4", "rows 5"), "numbers of rows"),
        (SLIDE.replace("cost 0 0\nstep 2", "cost 0 0\ndual 0 1\nstep 2"), "some have none"),
        (b"\x89PNG\r\n\x1a\n" + bytes(100), "no trace of mj"),
        (b"\x7fELF" + bytes(100), "cut off, or is no trace"),
    ],
)
def test_what_is_no_trace(kept, text, why):
    with pytest.raises(mjtools.TraceError, match=why):
        mjtools.read(kept("run.trace", text))


def test_a_trace_without_duals(kept):
    with pytest.raises(mjtools.TraceError, match="--dual yes"):
        mjtools.read(kept("run.trace", SLIDE)).dual(1)


def test_many_steps(kept):
    n = 20000
    blocks = "".join(
        f"step {k}\nq {k * 3}\nv {-k}\na 5\nresidual {k}\nradius 1 2\nrows 1 idle 0\n"
        f"row 1 low 1 {k} 0 {k + 1}\nstop limit {k % 7}\ncost {2**90 + k} {2**90}\n"
        for k in range(1, n + 1)
    )
    trace = mjtools.read(kept("run.trace", f"trace 1 nq=1 nv=1 steps={n}\n{blocks}end done\n"))
    k = np.arange(1, n + 1)
    assert (trace.raw("q")[:, 0] == 3 * k).all() and (trace.raw("v")[:, 0] == -k).all()
    assert (trace.row_lines["step"] == k).all() and (trace.row_lines["force"] == k / 2**20).all()
    assert (trace.gap == k / 2**88).all() and (trace.sweeps == k % 7).all() and trace.at_limit.all()
