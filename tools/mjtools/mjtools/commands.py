"""The command `mjtools`."""

import argparse
import os
import sys
from pathlib import Path

from . import explain, stat
from .errors import Unusable
from .model import read_model
from .program import find_mj
from .trace import read

DIFFERENT, UNUSABLE = 1, 2
"""Statuses beside 0: two traces differ; words or a file can't be used. `run` ends with the status of mj."""


def main(words=None):
    """Runs the command on the words, those of the process if none are given; its status."""
    wishes = _parser().parse_args(words)
    try:
        return wishes.command(wishes) or 0
    except Unusable as fault:
        return _tell_fault(fault)
    except BrokenPipeError:
        os.dup2(os.open(os.devnull, os.O_WRONLY), sys.stdout.fileno())
        return 0
    except OSError as fault:
        return _tell_fault(f"{fault.filename}: {fault.strerror}" if fault.filename else fault)
    except KeyboardInterrupt:
        return 130


def _tell_fault(fault):
    print(f"mjtools: {fault}", file=sys.stderr)
    return UNUSABLE


def _parser():
    parser = argparse.ArgumentParser(prog="mjtools", description="Runs of mj, their traces and models.")
    commands = parser.add_subparsers(required=True, metavar="COMMAND")
    for name, about, function, arguments in COMMANDS:
        command = commands.add_parser(name, help=about, description=about)
        command.set_defaults(command=function)
        for words, options in arguments:
            command.add_argument(*words, **options)
    return parser


def _opened(wishes, only=None):
    """The trace and the model of the words; the model is checked to be the trace's."""
    trace = read(wishes.trace, only)
    model = read_model(wishes.model) if wishes.model else None
    if model:
        model.check(trace)
    return trace, model


def _beside(wishes, end):
    """Where a picture or table goes if no name is given: beside the trace."""
    return wishes.out or str(Path(wishes.trace).with_suffix(end))


def _run(wishes):
    from .runner import run

    mj = find_mj(wishes.mj)
    if not mj:
        raise Unusable("mj isn't built: run 'rt run' in crates/mj, or name it by --mj or the variable MJ")
    trace = wishes.out or Path(wishes.model).stem + ".trace"
    status, told = run(mj, wishes.model, wishes.steps, trace, wishes.tape, wishes.dual, wishes.ball, wishes.inverse)
    print(*told, sep="\n", file=sys.stderr)
    return status


def _stat(wishes):
    trace, model = _opened(wishes)
    pairs = stat.figures(trace, model)
    width = max(len(name) for name, _ in pairs)
    for name, text in pairs:
        print(f"{name:{width}}  {text}")
    print(*stat.verdict(trace), sep="\n")


def _plot(wishes):
    from .plots import plot

    trace, model = _opened(wishes)
    plot(trace, _beside(wishes, ".png"), model)


def _anim(wishes):
    from .animation import Camera, animate

    trace, model = _opened(wishes, ("q", "v"))
    camera = Camera(wishes.azimuth, wishes.elevation)
    animate(trace, model, _beside(wishes, ".gif"), wishes.rate, wishes.speed, wishes.frames, wishes.height, camera)


def _gltf(wishes):
    from .gltf import write_gltf

    trace, model = _opened(wishes, ("q", "v"))
    write_gltf(trace, model, _beside(wishes, ".glb"), wishes.rate)


def _diff(wishes):
    from .differ import told

    one, other = read(wishes.trace), read(wishes.other)
    model = read_model(wishes.model) if wishes.model else None
    if model:
        model.check(one)
    lines = told(one, other, model)
    if lines:
        print(*lines, sep="\n")
    return DIFFERENT if lines else 0


def _csv(wishes):
    from .tables import write_rows, write_states

    trace, model = _opened(wishes)
    if wishes.rows:
        write_rows(trace, _beside(wishes, ".rows.csv"))
    else:
        write_states(trace, _beside(wishes, ".csv"), model)


def _explain(wishes):
    line = " ".join(wishes.what)
    if line == "-":
        line = sys.stdin.read().strip().rpartition("\n")[2]
    if os.path.isfile(line):
        told = _explain_file(line, wishes)
    elif line.removeprefix("status ").isdigit():
        told = explain.explain_status(int(line.removeprefix("status ")))
    elif len(wishes.what) == 1 and " " not in line and line != "end":
        raise Unusable(f"{line}: no such file; mj ends with status 6 then, and writes nothing")
    else:
        told = explain.explain_line(line, wishes.model, wishes.tape or [], dump=wishes.dump)
    print(*told, sep="\n")


def _explain_file(path, wishes):
    """A file by what it begins with, and by its name's end: a trace or refusal, a model, a tape."""
    with open(path, "rb") as file:
        head = file.read(4096)
    if head.startswith(b"trace "):
        return explain.explain_trace(path, wishes.model)
    if head.startswith((b"refused ", b"end ", b"rejected ", b"accepted ")):
        line = head.splitlines()[0].decode(errors="replace")
        return explain.explain_line(line, wishes.model, wishes.tape or [], dump=wishes.dump)
    if path.endswith(".csv"):
        return explain.explain_tape(path, wishes.model)
    return explain.explain_model(path, find_mj(wishes.mj))


def _above_zero(word):
    number = float(word)
    if not 0 < number < float("inf"):
        raise ValueError
    return number


def _count(word):
    number = int(word)
    if not 0 < number <= 10000:
        raise ValueError
    return number


TRACE = (["trace"], {"help": "a trace, the output of mj run"})
MODEL = (["--model", "-m"], {"metavar": "FILE", "help": "the trace's model: names, seconds, limits"})
ITS_MODEL = (["model"], {"help": "the trace's model, which has its bodies"})
OUT = (["--out", "-o"], {"metavar": "FILE", "help": "the file to write; without it one beside the trace"})
MJ = (["--mj"], {"metavar": "FILE", "help": "the program mj; without it that of the variable MJ, or the built one"})

COMMANDS = [
    (
        "run",
        "runs mj and keeps its trace; ends with its status",
        _run,
        [
            (["model"], {"help": "a model, TOML"}),
            (["--steps", "-n"], {"type": int, "default": 1000, "help": "how many steps (1000)"}),
            (["--tape"], {"metavar": "FILE", "help": "a tape of controls, CSV without headers"}),
            (["--dual"], {"action": "store_true", "help": "the dual of each step too, for mj check"}),
            (["--ball"], {"action": "store_true", "help": "how far each acceleration can be off"}),
            (["--inverse"], {"action": "store_true", "help": "mj inverse: each row's force by itself too"}),
            (["--out", "-o"], {"metavar": "FILE", "help": "the trace; without it MODEL.trace in this folder"}),
            MJ,
        ],
    ),
    ("stat", "a trace in figures", _stat, [TRACE, MODEL]),
    ("plot", "a picture of a run: PNG, SVG or PDF by the name's end", _plot, [TRACE, MODEL, OUT]),
    (
        "anim",
        "a moving picture (GIF), or a strip of frames (PNG), by the name's end",
        _anim,
        [
            TRACE,
            ITS_MODEL,
            OUT,
            (["--rate"], {"type": _above_zero, "default": 25.0, "help": "frames a second (25)"}),
            (["--speed"], {"type": _above_zero, "default": 1.0, "help": "how fast it runs; 0.5 is half as fast (1)"}),
            (["--frames"], {"type": _count, "default": 6, "help": "how many frames a strip has (6)"}),
            (["--height"], {"type": _count, "default": 360, "help": "of a frame, in pixels (360)"}),
            (
                ["--azimuth"],
                {"type": float, "default": -60.0, "help": "where it is seen from, about z, in degrees (-60)"},
            ),
            (["--elevation"], {"type": float, "default": 15.0, "help": "how far from above, in degrees (15)"}),
        ],
    ),
    (
        "gltf",
        "a scene of glTF 2.0 with keyed poses, for Blender and web viewers: .glb or .gltf by the name's end",
        _gltf,
        [TRACE, ITS_MODEL, OUT, (["--rate"], {"type": _above_zero, "default": 30.0, "help": "keys a second (30)"})],
    ),
    (
        "diff",
        "where two traces differ first, and how it grows; status 1 where they differ",
        _diff,
        [TRACE, (["other"], {"help": "another trace"}), MODEL],
    ),
    (
        "csv",
        "a table of states, or of rows with their forces",
        _csv,
        [TRACE, MODEL, OUT, (["--rows"], {"action": "store_true", "help": "the rows in place of the states"})],
    ),
    (
        "explain",
        "a refusal or an early end in words, or what is amiss in a file",
        _explain,
        [
            (
                ["what"],
                {"nargs": "+", "help": "a model, tape or trace, a line of mj, a status, or - for standard input"},
            ),
            (["--model", "-m"], {"metavar": "FILE", "help": "the model that the line is about"}),
            (["--tape"], {"metavar": "FILE", "action": "append", "help": "the tape that the line is about"}),
            (["--dump"], {"metavar": "FILE", "help": "the dump that mj check rejected"}),
            MJ,
        ],
    ),
]
