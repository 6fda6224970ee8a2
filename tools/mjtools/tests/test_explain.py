"""What is told of refusals, early ends and files, by what each stumble wants to know."""

import pytest
from conftest import BALL, EARLY, LIMIT, SLIDE_MODEL, TOP
from mjtools import advice, explain
from mjtools.errors import Unusable

BAD = """[option]
timestep = 0.001
gravity = [0, 0, -9.81]
[[body]]
name = "arm"
[[body.joint]]
name = "elbow"
range = [-90, 90]
frictionloss = 1
[[body.geom]]
type = "capsule"
size = [1]
colour = 3
"""


def told(line, *rest, **more):
    return "\n".join(explain.explain_line(line, *rest, **more))


def test_a_float_is_shown_as_text(kept):
    path = kept("m.toml", BAD)
    text = told("refused model FloatValue option.gravity", path)
    assert f"{path}:3: gravity = [0, 0, -9.81]" in text
    assert 'Write: gravity = [0, 0, "-9.81"]' in text


@pytest.mark.parametrize(
    "before, after",
    [
        ("timestep = 0.001", 'timestep = "0.001"'),
        ("pos = [1.5, -2e-3, 3]", 'pos = ["1.5", "-2e-3", 3]'),
        ('pos = ["1.5", 2.5]', 'pos = ["1.5", "2.5"]'),
        ("size = [ .5 ]", 'size = [ ".5" ]'),
        ("joint1 = 1", "joint1 = 1"),
    ],
)
def test_numbers_in_quotes(before, after):
    assert explain.FLOAT.sub(r'"\1"', before) == after


def test_a_key_of_format_2(kept):
    text = told("refused model UnknownKey body[1].joint[1].frictionloss", kept("m.toml", BAD))
    assert ":9: frictionloss = 1" in text and 'body "arm", joint "elbow"' in text and "format = 2" in text


def test_an_unknown_key_has_a_near_one(kept):
    text = BAD.replace("frictionloss", "armatur")
    assert "armature" in told("refused model UnknownKey body[1].joint[1].armatur", kept("m.toml", text))


def test_a_capsule_wants_two_sizes(kept):
    text = told("refused model BadRange body[1].geom[1].size", kept("m.toml", BAD))
    assert ":12: size = [1]" in text and "radius and half its length" in text and "quat = [1, 0, 1, 0]" in text


def test_a_missing_key_is_shown_at_its_table(kept):
    text = told("refused model MissingKey body[1].joint[1].axis", kept("m.toml", BAD))
    assert ":6: [[body.joint]]" in text


def test_no_toml_has_line_and_column(kept):
    path = kept("m.toml", "[option]\ntimestep = = 1\n")
    text = told("refused model NotToml", path)
    assert str(path) in text and "line 2, column 12" in text


def test_every_code_is_explained():
    codes = """TooLarge NotToml UnknownKey MissingKey FloatValue WrongKind BadNumber LimitPassed EmptyModel
        DuplicateName ParentLater UnknownName BadRange FreeJoint PlaneOffWorld NotUnit BadSolref BadSolimp""".split()
    document = (TOP / "docs" / "FORMATS.md").read_text()
    for code in codes:
        assert code in document
        assert len(told(f"refused model {code} body[1].x").splitlines()) > 1


def test_every_status_of_the_documents_is_explained():
    table = (TOP / "docs" / "FORMATS.md").read_text().split("## Statuses")[1].split("\n## ")[0]
    documented = {int(line.split("|")[1]) for line in table.splitlines() if line[:2] == "| " and line[2].isdigit()}
    assert documented <= set(advice.STATUSES) and {0, 2, 3, 4, 5, 6, 7, 8, 10} <= documented
    for status in documented:
        assert len(explain.explain_status(status)) >= 2
    assert "run --model FILE" in explain.explain_status(2)[-1]
    with pytest.raises(Unusable, match="no status 1"):
        explain.explain_status(1)


def test_every_kind_of_the_documents_is_explained():
    table = (TOP / "docs" / "FORMATS.md").read_text().split("| Kind | Index |")[1].split("\n\n")[0]
    kinds = {word.strip() for line in table.splitlines()[2:] for word in line.split("|")[1].split(",")}
    assert {"QuatNorm", "Pivot", "Reach", "Box"} <= kinds <= set(advice.KINDS)
    for kind in kinds | {"ErrorBound"}:
        assert len(told(f"end out-of-range step=7 kind={kind} index=1").splitlines()) == 3


def test_no_mass_on_a_joint(kept):
    path = kept("m.toml", SLIDE_MODEL.replace("inertial = { mass = 1 }\n", ""))
    text = told("end out-of-range step=1 kind=Pivot index=1", path)
    assert (
        "joint without mass" in text
        and "inertial" in text
        and "dof 1 (z)" in text
        and f"{path}:6: [[body.joint]]" in text
    )


def test_heavy_impacts_want_tonnes():
    text = told("end out-of-range step=9 kind=Reach index=1")
    assert "2^15" in text and "tonnes" in text


def test_a_place_in_q_has_its_name():
    model = TOP / "examples" / "humanoid.toml"
    assert "(root.z)" in told("end out-of-range step=9 kind=Position index=3", model)
    assert "(waist_z)" in told("end out-of-range step=9 kind=Velocity index=7", model)
    assert "(pelvis)" in told("end out-of-range step=9 kind=FramePos index=3", model)
    assert "row 3:" in told("end out-of-range step=9 kind=Force index=3", model)


def test_a_tapes_headers(kept):
    path = kept("t.csv", "left,right\n1,2\n")
    text = told("refused tape 1 BadNumber 1 1", None, [path])
    assert f"{path}:1: left,right" in text and "headers" in text


def test_a_tapes_record_has_its_line(kept):
    path = kept("t.csv", '1,2\n\n"3",4\r\n\n5,x\n')
    text = told("refused tape 1 BadNumber 3 2", None, [path])
    assert f"{path}:5: 5,x" in text and "headers" not in text
    text = told("refused tape 1 Width 3", None, [kept("u.csv", "1,2\n\n3,4\n5\n")])
    assert ":4: 5" in text and "has 1 fields" in text


def test_the_tape_of_a_batch_is_that_of_its_number(kept):
    text = told("refused tape 2 BadNumber 1 1", None, [kept("a.csv", "1\n"), kept("b.csv", "x\n")])
    assert "b.csv:1: x" in text


def test_short_and_large_tapes():
    assert "2 records, fewer than steps" in told("refused tape 1 Short 2")
    assert "67,108,864" in told("refused tape 1 TooLarge")


def test_words_are_marked():
    text = told("refused words 5", words=["run", "--model", "a", "--steps", "007"])
    assert "mj run --model a --steps >007<" in text and "run --model FILE --steps N" in text
    assert ">..<" in told("refused words 4", words=["run", "--model", "a"])


@pytest.mark.parametrize(
    "line",
    [
        "",
        "hello",
        "refused",
        "refused model Nonsense",
        "refused tape 1 Odd 3",
        "end out-of-range step=1 kind=Odd index=1",
    ],
)
def test_what_is_no_line_of_mj(line):
    with pytest.raises(Unusable):
        explain.explain_line(line)


def test_a_model_without_the_program(kept):
    path = kept("m.toml", BAD)
    text = "\n".join(explain.explain_model(path))
    for line, what in (
        (2, "in quotes"),
        (3, "in quotes"),
        (9, "format = 2"),
        (13, "colour"),
        (6, "nothing of weight"),
        (8, "degrees"),
        (12, "two sizes"),
    ):
        assert any(found.startswith(f"{path}:{line}: ") and what in found for found in text.splitlines()), (
            line,
            what,
        )


def test_the_examples_look_right():
    for path in sorted((TOP / "examples").glob("*.toml")):
        assert "nothing looks amiss" in "\n".join(explain.explain_model(path)), path


def test_weight_may_hang_below_or_be_armature(kept):
    below = (
        SLIDE_MODEL.replace("inertial = { mass = 1 }\n", "")
        + '[[body]]\nname = "b"\nparent = "a"\ninertial.mass = 1\n'
    )
    armature = SLIDE_MODEL.replace("inertial = { mass = 1 }\n", "") + 'armature = "0.1"\n'
    for text in (below, armature):
        assert "nothing looks amiss" in "\n".join(explain.explain_model(kept("m.toml", text)))


def test_a_tape_is_compared_with_the_models_motors(kept):
    model = kept("m.toml", SLIDE_MODEL + '[[motor]]\njoint = "z"\n')
    assert "each record has 1 numbers" in explain.explain_tape(kept("t.csv", "1\n2\n"), model)[0]
    assert "Width 1" in explain.explain_tape(kept("t.csv", "1,2\n"), model)[0]
    assert "BadNumber 2 1" in explain.explain_tape(kept("t.csv", "1\n2000000\n"), model)[0]
    assert "no record" in explain.explain_tape(kept("t.csv", ""), model)[0]


def test_a_trace(kept):
    text = "\n".join(explain.explain_trace(kept("t.trace", EARLY), kept("m.toml", SLIDE_MODEL)))
    assert "3 of 20 steps" in text and "Position" in text and "(z)" in text
    text = "\n".join(explain.explain_trace(kept("t.trace", BALL)))
    assert "3.1e-10" in text and "as good as the best" in text


def test_what_the_program_says_of_a_model(kept, mj):
    text = "\n".join(explain.explain_model(kept("m.toml", BAD), mj))
    assert "refused model FloatValue option.timestep" in text and 'timestep = "0.001"' in text
    text = "\n".join(explain.explain_model(kept("m.toml", SLIDE_MODEL), mj))
    assert "accepts it" in text
    text = "\n".join(explain.explain_model(kept("m.toml", SLIDE_MODEL.replace("inertial = { mass = 1 }\n", "")), mj))
    assert "kind=Pivot" in text and "joint without mass" in text


def test_verdicts(kept):
    dump = kept("run.dump", LIMIT)
    text = told("rejected 9 Box", dump=dump)
    assert f"{dump}:9: row 1 low 1 4718592 4718592 4718592\n" in text and "isn't the one" in text
    assert "ends before" in told("rejected 15 Form", dump=dump) and "--dual yes" in told("rejected 15 Form")
    assert "belong to a model" in told("accepted 1")
    for reason in ("TooLarge", "Form", "Limit", "Feasible", "Cost", "Bound", "Box"):
        assert len(explain.explain_line(f"rejected 1 {reason}")) == 2
    assert "rejected LINE REASON" in "\n".join(explain.explain_status(9))
    for line in ("rejected 9", "rejected x Box", "rejected 9 Colour", "accepted", "accepted x"):
        with pytest.raises(Unusable):
            explain.explain_line(line)


def test_a_long_line_of_a_dump_is_cut(kept):
    text = told("rejected 1 Form", dump=kept("d", "1" * 1000 + "\n"))
    assert ":1: " + "1" * 100 + " ..\n" in text
