"""Models, their numbers, and which traces are theirs."""

import mjtools
import numpy as np
import pytest
from conftest import BALL, FRICTION, SLIDE, SLIDE_MODEL, TOP
from mjtools.numerals import nearest, numeral
from mjtools.places import line_of, places


@pytest.mark.parametrize(
    "text, raw",
    [
        ("0.002", 8589935),
        ("-9.81", -42133629174),
        ("1e-8", 43),
        (".5", 2147483648),
        ("5e-1", 2147483648),
        ("+1.", 2**32),
    ],
)
def test_numerals(text, raw):
    assert numeral(text) == raw


@pytest.mark.parametrize("text", ["", "-", "1..2", "1e", "1 ", "0,5", "1/2", "0x10", "90deg", "1" * 27, "1e30", "٣"])
def test_what_is_no_numeral(text):
    with pytest.raises(ValueError):
        numeral(text)


def test_a_tie_goes_to_the_number_nearer_to_zero():
    assert [nearest(n, 2) for n in (1, -1, 3, -3, 4)] == [0, 0, 1, -1, 2]
    assert [nearest(n, 3) for n in (1, 2, -2)] == [0, 1, -1]


def test_names_of_positions_and_velocities():
    model = mjtools.read_model(TOP / "examples" / "humanoid.toml")
    assert (model.nq, model.nv) == (28, 27)
    assert model.position_names[:8] == [
        "root.x",
        "root.y",
        "root.z",
        "root.qw",
        "root.qx",
        "root.qy",
        "root.qz",
        "waist_z",
    ]
    assert model.velocity_names[:7] == ["root.vx", "root.vy", "root.vz", "root.wx", "root.wy", "root.wz", "waist_z"]
    assert model.joints[1].range == (-1, 1) and model.joints[1].qadr == 7 and model.joints[1].dadr == 6


def test_a_ball_and_an_unnamed_joint(kept):
    text = SLIDE_MODEL.replace('name = "z"\ntype = "slide"', 'type = "ball"')
    model = mjtools.read_model(kept("m.toml", text))
    assert model.position_names == ["joint1.qw", "joint1.qx", "joint1.qy", "joint1.qz"]
    assert model.velocity_names == ["joint1.wx", "joint1.wy", "joint1.wz"]


def test_a_trace_is_its_models(kept):
    model = mjtools.read_model(kept("m.toml", SLIDE_MODEL))
    model.check(mjtools.read(kept("run.trace", SLIDE)))
    assert model.timestep == 0.25


@pytest.mark.parametrize(
    "text, why",
    [
        (BALL, "nq=7 nv=6, not nq=1 nv=1"),
        (FRICTION, "format 2, not 1"),
        (SLIDE.replace("q -2147483648", "q -2147483647"), "changed since"),
    ],
)
def test_a_trace_of_another_model(kept, text, why):
    model = mjtools.read_model(kept("m.toml", SLIDE_MODEL))
    with pytest.raises(mjtools.TraceError, match="another model") as fault:
        model.check(mjtools.read(kept("run.trace", text)))
    assert why in str(fault.value)


def test_another_timestep_or_start_is_found(kept):
    trace = mjtools.read(kept("run.trace", SLIDE))
    for text in (SLIDE_MODEL.replace("0.25", "0.5"), SLIDE_MODEL + "[keyframe]\nqpos = [1]\n"):
        with pytest.raises(mjtools.TraceError, match="another model"):
            mjtools.read_model(kept("other.toml", text)).check(trace)


@pytest.mark.parametrize(
    "old, new, line, why",
    [
        ('"0.25"', "0.25", 2, 'write 0.25 as text, "0.25"'),
        ('"0.25"', '"a"', 2, "'a' is no numeral"),
        ('"slide"', '"screw"', 9, "free, ball, hinge, slide"),
        ('name = "a"', 'name = "a"\nparent = "b"', 6, "no body above it"),
        ('name = "a"', "pos = [0, 0]", 5, "not 3 numbers"),
        ("[option]", "format = 3\n[option]", 1, "format 3"),
        ('type = "slide"', "axis = [0, 0, 0]", 9, "too short"),
    ],
)
def test_what_a_model_cant_be_read_for(kept, old, new, line, why):
    path = kept("m.toml", SLIDE_MODEL.replace(old, new, 1))
    with pytest.raises(mjtools.ModelError) as fault:
        mjtools.read_model(path)
    message = str(fault.value)
    assert message.startswith(f"{path}:{line}: ") or "pos = [0, 0]" == new
    assert why in message or "has no name" in message


def test_what_is_no_toml(kept):
    with pytest.raises(mjtools.ModelError, match="line 2, column"):
        mjtools.read_model(kept("m.toml", "[option]\ntimestep = \n"))
    with pytest.raises(mjtools.ModelError, match=":2: no text in UTF-8"):
        mjtools.read_model(kept("m.toml", b"[option]\n# \xff\n"))


def test_places_of_keys():
    text = """# "a comment"
format = 2
[option]
gravity = [
  0, 0,
  "-9.81", # down
]
[[body]]
name = "a = [b]"
inertial = { mass = 1, pos = [0, 0, 1] }
[[body.joint]]
axis = [0, 0, 1]
[[body.joint]]
[[body]]
name = 'c'
inertial.mass = 2
[[body.joint]]
range = [1, 2]
[[tendon]]
joint = [
  { joint = "x", coef = 1 },
  { joint = "y", coef = 2 },
]
"""
    found = places(text)
    assert found["format"] == 2 and found["option"] == 3 and found["option.gravity"] == 4
    assert found["body[1].name"] == 9 and found["body[1].inertial.mass"] == 10
    assert found["body[1].joint[1].axis"] == 12 and found["body[1].joint[2]"] == 13
    assert found["body[2].inertial.mass"] == 16 and found["body[2].joint[1].range"] == 18
    assert found["tendon[1].joint[2].coef"] == 22
    assert line_of(text, "body[2].joint[1].name") == 17
    assert line_of(text, "keyframe.qpos") is None


def test_every_key_of_the_examples_has_its_line():
    for path in sorted((TOP / "examples").glob("*.toml")):
        text = path.read_text()
        for place, line in places(text).items():
            shown = text.splitlines()[line - 1]
            word = place.rpartition(".")[2].partition("[")[0]
            assert word in shown or place.endswith("]")


def test_a_free_body_starts_where_it_stands(kept):
    text = SLIDE_MODEL.replace('name = "z"\ntype = "slide"', 'type = "free"').replace(
        "inertial", 'pos = ["0.5", 0, 2]\nquat = [0, 2, 0, 0]\ninertial'
    )
    start = np.array(mjtools.read_model(kept("m.toml", text)).raw_qpos0) / 2**32
    assert start.tolist() == [0.5, 0, 2, 0, 1, 0, 0]
