"""Where geoms touch, at pairs worked by hand."""

import mjtools
import numpy as np
import pytest
from conftest import TOP
from mjtools import contacts as contacts_module
from mjtools import state_contacts

FREE = """[[body]]
name = "{name}"
pos = {pos}
inertial = {{ mass = 1 }}
[[body.joint]]
type = "free"
[[body.geom]]
{geom}
"""
ALONG_X = 'type = "capsule"\nsize = ["0.25", 1]\nquat = [1, 0, 1, 0]'
ALONG_Z = 'type = "capsule"\nsize = ["0.25", 1]'
PLANE = '[[geom]]\ntype = "plane"\n'


def start(kept, text):
    model = mjtools.read_model(kept("m.toml", text))
    return state_contacts(model, np.array(model.raw_qpos0)[None] / 2**32)


def free(name, pos, geom):
    return FREE.format(name=name, pos=pos, geom=geom)


def test_crossed_capsules(kept):
    (found,) = start(kept, free("a", "[0, 0, 0]", ALONG_X) + free("b", "[0, 0, 0]", ALONG_Z))
    assert found["dist"] == -0.5 and found["normal"].tolist() == [0, 0, 1] and found["point"].tolist() == [0, 0, 0]
    assert (found["geom1"], found["geom2"], found["number"], found["step"]) == (1, 2, 1, 1)


def test_parallel_capsules(kept):
    (found,) = start(kept, free("a", "[0, 0, 0]", ALONG_Z) + free("b", '["0.25", 0, 0]', ALONG_Z))
    assert (
        found["dist"] == -0.25 and found["normal"].tolist() == [1, 0, 0] and found["point"].tolist() == [0.125, 0, 0]
    )


def test_a_lying_capsule_has_its_end_at_x_first(kept):
    text = PLANE + free("a", '[0, 0, "0.1"]', 'type = "capsule"\nsize = ["0.125", "0.25"]\nquat = [1, 0, 1, 0]')
    first, second = start(kept, text)
    assert first["point"] == pytest.approx([0.25, 0, -0.0125]) and second["point"] == pytest.approx(
        [-0.25, 0, -0.0125]
    )
    assert first["dist"] == pytest.approx(-0.025) and (first["number"], second["number"]) == (1, 2)
    assert first["normal"].tolist() == [0, 0, 1] and first["geom1"] == 1


def test_a_touching_ball_has_no_contact_but_a_nearer_one(kept):
    assert start(kept, PLANE + free("a", '[0, 0, "0.1"]', 'size = ["0.1"]')).size == 0
    (found,) = start(kept, PLANE + free("a", "[1, 2, 1]", 'size = ["1.5"]'))
    assert found["dist"] == -0.5 and found["point"].tolist() == [1, 2, -0.25]
    (found,) = start(kept, PLANE + free("a", "[1, 2, 3]", "size = [2]\nmargin = 2"))
    assert found["dist"] == 1 and found["point"].tolist() == [1, 2, 0.5]


def test_a_ball_beside_a_capsule(kept):
    ball = free("b", "[1, 0, 5]", 'size = ["0.5"]\nmargin = 9')
    (found,) = start(kept, free("a", "[0, 0, 0]", 'type = "capsule"\nsize = ["0.25", 5]') + ball)
    assert (found["geom1"], found["geom2"]) == (2, 1), "the ball is geom 1, since its kind comes first"
    assert (
        found["dist"] == 0.25 and found["normal"].tolist() == [-1, 0, 0] and found["point"].tolist() == [0.375, 0, 5]
    )


def test_capsules_end_to_end(kept):
    (found,) = start(kept, free("a", "[0, 0, 0]", ALONG_Z) + free("b", '[0, 0, "2.4"]', ALONG_Z))
    assert found["dist"] == pytest.approx(-0.1) and found["normal"] == pytest.approx([0, 0, 1])
    (found,) = start(kept, free("a", "[0, 0, 0]", ALONG_X) + free("b", '["1.2", 0, 1]', ALONG_Z))
    assert found["dist"] == pytest.approx(0.2 - 0.5) and found["normal"] == pytest.approx([1, 0, 0])


def test_balls_with_one_centre_part_along_z(kept):
    (found,) = start(kept, free("a", "[0, 0, 0]", "size = [1]") + free("b", "[0, 0, 0]", "size = [2]"))
    assert found["dist"] == -3 and found["normal"].tolist() == [0, 0, 1]


@pytest.mark.parametrize(
    "first, second, count",
    [
        ("", "", 1),
        ("contype = 0\nconaffinity = 0", "", 0),
        ("contype = 2", "conaffinity = 2\ncontype = 4", 1),
        ("contype = 2\nconaffinity = 2", "conaffinity = 5\ncontype = 5", 0),
    ],
)
def test_masks(kept, first, second, count):
    text = free("a", "[0, 0, 0]", f"size = [1]\n{first}") + free("b", "[1, 0, 0]", f"size = [1]\n{second}")
    assert start(kept, text).size == count


def test_parents_and_bodies_that_stand_still(kept):
    ball = "[[body.geom]]\nsize = [1]\n"
    tree = (
        '[[geom]]\nsize = [1]\n[[body]]\nname = "still"\n'
        + ball
        + '[[body]]\nname = "root"\ninertial = { mass = 1 }\n[[body.joint]]\n'
        + ball
        + '[[body]]\nname = "child"\nparent = "root"\n'
        + ball
        + '[[body]]\nname = "grandchild"\nparent = "child"\n'
        + ball
    )
    found = start(kept, tree)
    pairs = list(zip(found["geom1"].tolist(), found["geom2"].tolist()))
    assert pairs == [(1, 3), (1, 4), (1, 5), (2, 3), (2, 4), (2, 5), (3, 5)]
    assert found["number"].tolist() == [1, 2, 3, 4, 5, 6, 7]


def test_blocks_dont_matter(kept, monkeypatch):
    model = mjtools.read_model(
        kept("m.toml", PLANE + free("a", "[0, 0, 0]", "size = [1]") + free("b", "[1, 0, 0]", "size = [1]"))
    )
    q = np.zeros((7, 14))
    q[:, [3, 10]], q[:, 2], q[:, 9] = 1, np.linspace(0, 2, 7), np.linspace(3, 0, 7)
    whole = state_contacts(model, q)
    monkeypatch.setattr(contacts_module, "BLOCK", 2)
    assert state_contacts(model, q).tobytes() == whole.tobytes() and len(set(whole["step"].tolist())) > 3


def test_contacts_of_a_trace_are_as_many_as_its_rows(kept):
    case = TOP / "tests" / "cases" / "ball"
    model, trace = mjtools.read_model(case / "model.toml"), mjtools.read(case / "stdout")
    found = mjtools.trace_contacts(model, trace)
    assert np.bincount(found["step"], minlength=61)[1:].tolist() == (trace.rows // 4).tolist()
    rows = trace.rows_of("contact")
    assert (
        found["step"].tolist() == rows["step"][::4].tolist() and found["number"].tolist() == rows["id"][::4].tolist()
    )
    assert (found["dist"] < 0).all() and (found["geom1"] == 1).all()
