"""Where two traces differ."""

import mjtools
import pytest
from conftest import BALL, BALLS, EARLY, INVERSE, SLIDE
from mjtools.differ import differences, told


def traces(kept, one, other):
    return mjtools.read(kept("a.trace", one)), mjtools.read(kept("b.trace", other))


def test_equal_traces(kept):
    assert told(*traces(kept, SLIDE, SLIDE)) == []
    assert told(*traces(kept, BALL, BALL)) == []


def test_the_first_step_and_number(kept):
    other = BALL.replace("v 287 320 67 7901", "v 287 320 67 7903").replace("a 0 0 -2294", "a 0 0 -2290")
    v, a = differences(*traces(kept, BALL, other))
    assert (v.quantity, v.step, v.number, v.first) == ("v", 1, 4, 2 / 2**32)
    assert (a.quantity, a.step, a.number, a.first) == ("a", 1, 3, 4 / 2**32)


def test_growth(kept):
    other = SLIDE.replace("-6442450944", "-6442450943").replace("-12884901888", "-12884901872")
    (q,) = differences(*traces(kept, SLIDE, other))
    assert (q.step, q.first, q.last, q.largest, q.worst) == (2, 2**-32, 2**-28, 2**-28, 3)
    assert q.doubling == 0.25
    lines = told(*traces(kept, SLIDE, other))
    assert lines[0] == "first: step 2, q 1" and "doubles in 0.25 steps" in lines[1]


def test_costs_differ_by_one_unit(kept):
    other = BALL.replace("-32853822443848167755936561746 ", "-32853822443848167755936561745 ")
    (cost,) = differences(*traces(kept, BALL, other))
    assert (cost.quantity, cost.number, cost.first) == ("cost", 1, 2.0**-88)


def test_forces(kept):
    other = BALL.replace("row 3 contact 1 3 2571512", "row 3 contact 1 3 2571513")
    (row,) = differences(*traces(kept, BALL, other))
    assert (row.quantity, row.step, row.number, row.first, row.worst) == ("row", 1, 3, 2.0**-20, 1)
    other = BALL.replace("row 3 contact 1 3", "row 3 contact 2 3")
    assert "other constraints" in told(*traces(kept, BALL, other))[-1]


def test_other_lengths_and_ends(kept):
    lines = told(*traces(kept, SLIDE, EARLY))
    assert lines == ["steps: 3 of 3 and 3 of 20", "end: done and Position 1 out of range in step 4"]


def test_other_models(kept):
    assert told(*traces(kept, SLIDE, BALL)) == ["they aren't of one model: format 1 nq=1 nv=1 and format 1 nq=7 nv=6"]


def test_names(kept):
    model = mjtools.read_model(kept("m.toml", '[[body]]\nname = "a"\n[[body.joint]]\nname = "z"\ntype = "slide"\n'))
    other = SLIDE.replace("v -17179869184", "v -17179869183")
    assert told(*traces(kept, SLIDE, other), model)[0] == "first: step 2, v z"
    assert model.position_names == ["z"]
    assert pytest.approx(differences(*traces(kept, SLIDE, other))[0].first) == 2**-32


def test_balls_and_separated_forces(kept):
    (ball,) = differences(*traces(kept, BALLS, BALLS.replace(" 8589934592\nend", " 8589934593\nend")))
    assert (ball.quantity, ball.step, ball.number, ball.first) == ("ball", 3, 3, 1)
    (inverse,) = differences(*traces(kept, INVERSE, INVERSE.replace("inverse 1048576", "inverse 1048577")))
    assert (inverse.quantity, inverse.step, inverse.number) == ("inverse", 1, 1)
    assert told(*traces(kept, SLIDE, BALLS)) == ["ball: only the second has such lines"]
    assert told(*traces(kept, BALLS, SLIDE)) == ["ball: only the first has such lines"]
