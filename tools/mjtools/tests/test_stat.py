"""The figures of a trace."""

import mjtools
from conftest import BALL, BALLS, EARLY, INVERSE, SLIDE, SLIDE_MODEL, TOP
from mjtools.stat import figures, verdict


def test_figures_of_a_fall(kept):
    model = mjtools.read_model(kept("m.toml", SLIDE_MODEL))
    found = dict(figures(mjtools.read(kept("t.trace", SLIDE)), model))
    assert found["steps"] == "3 of 3 (0.75 s)" and found["end"] == "done"
    assert found["largest position"] == "-3 of z (step 3)" and found["largest velocity"] == "-6 of z (step 3)"
    assert found["stops"] == "0 at the tolerance, 0 at the limit, 3 without a row"


def test_figures_of_an_early_end(kept):
    assert dict(figures(mjtools.read(kept("t.trace", EARLY))))["end"] == "Position 1 out of range in step 4"
    none = mjtools.read(kept("t.trace", "trace 1 nq=1 nv=1 steps=1\nend out-of-range step=1 kind=Pivot index=1\n"))
    assert dict(figures(none))["steps"] == "0 of 1"
    assert verdict(none) == ["No step had a constraint, so there were no forces to find."]


def test_a_gap_is_judged_by_its_cost(kept):
    trace = mjtools.read(kept("t.trace", BALL))
    assert dict(figures(trace))["gap / cost"] == "at most 3.1e-10 (step 1)"
    assert "as good as the best" in verdict(trace)[0] and len(verdict(trace)) == 1


def test_a_poor_gap_wants_iterations(kept):
    poor = BALL.replace("-32853822454067129288963096528", "-32853922454067129288963096528")
    told = verdict(mjtools.read(kept("t.trace", poor.replace("tolerance 53", "limit 100"))))
    assert "3e-06" in told[0] and "poor" in told[0]
    assert told[1] == "The sweeps ran out in 1 of 1 steps." and "300 to 1,000" in told[2] and "absolute" in told[2]


def test_balls_and_separated_forces(kept):
    told = dict(figures(mjtools.read(kept("b.trace", BALLS))))["ball"]
    assert told == "the acceleration is within 2 of its rounded system's (step 3), none in 1 steps"
    none = BALLS.replace("ball 39 549755813888 0", "ball none").replace("ball 37 137438953366 8589934592", "ball none")
    assert dict(figures(mjtools.read(kept("n.trace", none))))["ball"] == "none in any step"
    found = dict(figures(mjtools.read(kept("i.trace", INVERSE))))
    assert found["inverse gap"] == found["discrepancy"] == "at most 1 N or N m (step 1)"
    assert not {"ball", "inverse gap"} & set(dict(figures(mjtools.read(kept("s.trace", SLIDE)))))


def test_which_geoms_touch():
    case = TOP / "tests" / "cases" / "ball"
    found = figures(mjtools.read(case / "stdout"), mjtools.read_model(case / "model.toml"))
    assert [text for name, text in found if name == "touching"] == [
        "plane of the world, sphere of ball: 10 steps from step 51 on"
    ]
