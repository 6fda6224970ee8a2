"""The command: statuses, one-line faults, files that are whole or not there."""

import os
import stat
import subprocess
import sys

import mjtools
import pytest
from conftest import BALL, BALLS, EARLY, INVERSE, LIMIT, SLIDE, SLIDE_MODEL, TOP
from mjtools import commands
from mjtools.writing import whole_file

SPIN = TOP / "examples" / "spin.toml"


@pytest.fixture
def fake(kept):
    """A program in the place of mj that prints a text and ends with a status."""

    def make(text, status):
        body = f"#!/bin/sh\ncat {kept('said', text)}\nexit {status}\n"
        path = kept("mj", body)
        path.chmod(0o755)
        return str(path)

    return make


def test_run_keeps_the_trace(kept, fake, capfd, tmp_path):
    model, out = kept("m.toml", SLIDE_MODEL), tmp_path / "kept.trace"
    assert commands.main(["run", str(model), "-n", "3", "--mj", fake(SLIDE, 0), "-o", str(out)]) == 0
    assert out.read_text() == SLIDE
    told = capfd.readouterr()
    assert told.out == "" and told.err.startswith("3 of 3 steps in ") and str(out) in told.err


def test_run_keeps_a_trace_that_ends_early(kept, fake, capfd, tmp_path):
    model, out = kept("m.toml", SLIDE_MODEL), tmp_path / "kept.trace"
    assert commands.main(["run", str(model), "-n", "20", "--mj", fake(EARLY, 3), "-o", str(out)]) == 3
    assert out.read_text() == EARLY
    told = capfd.readouterr().err
    assert "3 of 20 steps" in told and "its position passed 4,096 m" in told and "(z)" in told


@pytest.mark.parametrize(
    "said, status, why",
    [
        ("refused model FloatValue option.timestep\n", 4, ':2: timestep = "0.25"'),
        ("refused words 5\n", 2, "mj run --model"),
        ("refused tape 1 BadNumber 1 1\n", 5, "no number"),
        ("", 6, "can't be opened"),
        ("trace 1 nq=1 nv=1 steps=3\nstep 1\n", 7, "couldn't be written"),
        ("", 8, "no memory"),
        ("", 10, "UTF-8"),
    ],
)
def test_run_without_a_trace(kept, fake, capfd, tmp_path, said, status, why):
    model, out = kept("m.toml", SLIDE_MODEL), tmp_path / "kept.trace"
    out.write_text("an earlier trace")
    before = set(os.listdir(tmp_path)) | {"mj", "said"}
    assert commands.main(["run", str(model), "--mj", fake(said, status), "-o", str(out)]) == status
    assert why in capfd.readouterr().err
    assert out.read_text() == "an earlier trace" and set(os.listdir(tmp_path)) == before


def test_run_asks_for_what_is_wished(kept, capfd, tmp_path):
    model, out = kept("m.toml", SLIDE_MODEL), tmp_path / "t"
    mj = kept("mj", "#!/bin/sh\necho $*\n")
    mj.chmod(0o755)
    for flags, command, ends in (
        (["--dual"], "run", " --dual yes"),
        (["--ball", "--dual"], "run", " --dual yes --ball yes"),
        (["--inverse"], "inverse", ""),
    ):
        assert commands.main(["run", str(model), "-n", "3", "--mj", str(mj), "-o", str(out), *flags]) == 0
        assert out.read_text() == f"{command} --model {model} --steps 3{ends}\n"
    assert commands.main(["run", str(model), "--mj", str(mj), "--inverse", "--ball"]) == 2
    assert "neither duals nor balls" in capfd.readouterr().err


def test_run_of_a_missing_model(fake, capfd, tmp_path):
    assert commands.main(["run", "nowhere.toml", "--mj", fake("", 6), "-o", str(tmp_path / "t")]) == 6
    assert "no such file: nowhere.toml" in capfd.readouterr().err


def test_run_of_what_isnt_mj(kept, fake, capfd, tmp_path):
    model = str(kept("m.toml", SLIDE_MODEL))
    assert commands.main(["run", model, "--mj", fake("hello\n", 42), "-o", str(tmp_path / "t")]) == 2
    assert "status 42" in capfd.readouterr().err
    assert commands.main(["run", model, "--mj", str(tmp_path / "none")]) == 2
    assert "isn't built" in capfd.readouterr().err


def test_run_of_the_program(kept, mj, capfd, tmp_path):
    out = tmp_path / "t.trace"
    assert commands.main(["run", str(kept("m.toml", SLIDE_MODEL)), "-n", "3", "-o", str(out)]) == 0
    assert out.read_text() == SLIDE
    model = kept("m.toml", SLIDE_MODEL.replace('"0.25"', "0.25"))
    assert commands.main(["run", str(model), "-n", "3", "-o", str(tmp_path / "u.trace")]) == 4
    assert 'Write: timestep = "0.25"' in capfd.readouterr().err and not (tmp_path / "u.trace").exists()


def test_the_progress_line(kept, tmp_path):
    from io import StringIO

    from mjtools.runner import Progress

    stream = StringIO()
    progress = Progress(1000, stream)
    progress._start -= 20
    progress._next = 0
    progress.take(b"cost 0 0\nstep 499\nq 1\ncost 0 0\nstep 500\nq 1")
    assert "step 500 of 1000, 25 steps/s, 20 s left" in stream.getvalue()


@pytest.mark.parametrize(
    "words",
    [
        ["stat", "{cut}"],
        ["plot", "{cut}"],
        ["stat", "{model}"],
        ["stat", "{ball}", "-m", "{model}"],
        ["plot", "{ball}", "-m", "{model}"],
        ["anim", "{ball}", "{model}"],
        ["gltf", "{ball}", "{model}"],
        ["csv", "{ball}", "-m", "{model}"],
        ["csv", "{cut}"],
        ["diff", "{slide}", "{cut}"],
        ["stat", "{slide}", "-m", "{odd}"],
        ["anim", "{slide}", "{odd}"],
        ["stat", "{missing}"],
        ["plot", "{slide}", "-o", "{folder}/no/such.png"],
        ["plot", "{slide}", "-o", "{folder}/picture.txt"],
        ["anim", "{slide}", "{model}", "-o", "{folder}/picture.txt"],
        ["gltf", "{slide}", "{model}", "-o", "{folder}/scene.txt"],
        ["explain", "{missing}"],
        ["explain", "refused", "model", "Odd"],
        ["explain", "1"],
    ],
)
def test_a_fault_is_one_line_and_leaves_nothing(kept, capfd, tmp_path, words):
    names = {
        "cut": kept("cut.trace", SLIDE[:200]),
        "model": kept("m.toml", SLIDE_MODEL),
        "odd": kept("odd.toml", "format = 3\n" + SLIDE_MODEL),
        "ball": kept("ball.trace", BALL),
        "slide": kept("slide.trace", SLIDE),
        "missing": tmp_path / "missing",
        "folder": tmp_path,
    }
    before = set(os.listdir(tmp_path))
    assert commands.main([word.format(**names) for word in words]) == 2
    told = capfd.readouterr()
    assert told.out == "" and told.err.startswith("mjtools: ") and told.err.count("\n") == 1
    assert set(os.listdir(tmp_path)) == before


def test_words_that_arent_the_commands(capfd):
    for words in ([], ["walk"], ["stat"], ["anim", "a", "b", "--rate", "-1"]):
        with pytest.raises(SystemExit) as end:
            commands.main(words)
        assert end.value.code == 2
        assert "usage" in capfd.readouterr().err


def test_a_file_takes_its_name_when_it_is_whole(tmp_path):
    path = tmp_path / "out"
    with whole_file(path) as file:
        file.write(b"new")
        assert not path.exists()
    assert path.read_bytes() == b"new" and stat.S_IMODE(path.stat().st_mode) & 0o600 == 0o600
    with pytest.raises(KeyboardInterrupt), whole_file(path) as file:
        file.write(b"half")
        raise KeyboardInterrupt
    assert path.read_bytes() == b"new" and os.listdir(tmp_path) == ["out"]


def test_diff_tells_by_its_status(kept, capfd):
    one, other = str(kept("a.trace", SLIDE)), str(kept("b.trace", SLIDE.replace("v -17179869184", "v -17179869183")))
    assert commands.main(["diff", one, one]) == 0
    assert capfd.readouterr().out == ""
    assert commands.main(["diff", one, other]) == 1
    assert "first: step 2, v 1" in capfd.readouterr().out


def test_explain_takes_lines_files_and_statuses(kept, capfd, monkeypatch):
    assert commands.main(["explain", "refused", "model", "FloatValue", "option.timestep"]) == 0
    assert commands.main(["explain", "refused model FloatValue option.timestep"]) == 0
    assert commands.main(["explain", "status", "6"]) == 0
    assert commands.main(["explain", str(kept("said", "refused words 1\n"))]) == 0
    assert commands.main(["explain", str(kept("t.csv", "a,b\n"))]) == 0
    assert commands.main(["explain", str(kept("t.trace", SLIDE))]) == 0
    monkeypatch.setattr(sys, "stdin", open(kept("in", EARLY)))
    assert commands.main(["explain", "-"]) == 0
    told = capfd.readouterr().out
    for word in ("in quotes", "can't be opened", "run --model FILE", "headers", "3 of 3 steps", "passed 4,096 m"):
        assert word in told


def test_the_command_runs_by_itself(kept):
    program = TOP / "tools" / "mjtools" / "bin" / "mjtools"
    done = subprocess.run([program, "stat", kept("t.trace", BALL)], capture_output=True, text=True, check=False)
    assert done.returncode == 0 and "gap / cost" in done.stdout and done.stderr == ""


def test_a_table_reads_back_the_same(kept, tmp_path):
    model, trace = str(kept("m.toml", SLIDE_MODEL)), str(kept("t.trace", SLIDE))
    out = tmp_path / "t.csv"
    assert commands.main(["csv", trace, "-m", model, "-o", str(out)]) == 0
    head, *lines = out.read_text().splitlines()
    assert head == "step,time,q z,v z,a z,rows,sweeps,cost,bound,gap,residual"
    assert lines == [
        "1,0.25,-0.5,-2.0,-8.0,0,0,0.0,0.0,0.0,0.0",
        "2,0.5,-1.5,-4.0,-8.0,0,0,0.0,0.0,0.0,0.0",
        "3,0.75,-3.0,-6.0,-8.0,0,0,0.0,0.0,0.0,0.0",
    ]


def test_a_table_of_rows(kept, tmp_path):
    out = tmp_path / "r.csv"
    assert commands.main(["csv", "--rows", str(kept("t.trace", LIMIT)), "-o", str(out)]) == 0
    assert out.read_text().splitlines() == [
        "step,row,kind,id,edge,idle,force,lo,hi,low,high",
        "1,1,low,1,0,False,4.5,4.5,4.5,0.0,inf",
    ]


def test_tables_of_balls_and_separated_forces(kept, tmp_path):
    out = tmp_path / "t.csv"
    assert commands.main(["csv", str(kept("b.trace", BALLS)), "-o", str(out)]) == 0
    lines = [line.split(",")[-2:] for line in out.read_text().splitlines()]
    assert lines == [["ball_low", "ball_radius"], ["0.5", "0.0"], ["nan", "nan"], [str(137438953366 / 2**40), "2.0"]]
    assert commands.main(["csv", "--rows", str(kept("i.trace", INVERSE)), "-o", str(out)]) == 0
    lines = [line.split(",")[-1] for line in out.read_text().splitlines()]
    assert lines == ["separated", "5.0", "2.0"]


def test_explain_takes_a_verdict(kept, capfd):
    dump = str(kept("run.dump", LIMIT))
    assert commands.main(["explain", "rejected", "13", "Limit", "--dump", dump]) == 0
    assert "run.dump:13: d 1 281474976710656" in capfd.readouterr().out
    assert commands.main(["explain", str(kept("said", "accepted 1\n"))]) == 0
    assert commands.main(["explain", "rejected", "13", "Limit", "--dump", dump + "-not"]) == 2


def test_every_public_name_has_its_words():
    for name in mjtools.__all__:
        thing = getattr(mjtools, name)
        assert not callable(thing) or thing.__doc__
