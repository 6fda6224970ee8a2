"""Refusals, early ends, statuses and files of `mj` in words: what is the matter, on which line, and what to do."""

import itertools
import re

from . import advice
from .errors import ModelError, Unusable
from .hints import findings, named, unknown_key
from .model import load_document, read_model
from .places import line_of
from .program import outcome
from .stat import verdict
from .tape import first_fault, is_control, record
from .trace import EARLY_END, read

FLOAT = re.compile(r"""(?<![\w."'])([-+]?\d*\.\d+(?:[eE][-+]?\d+)?|[-+]?\d+(?:\.\d*)?[eE][-+]?\d+)(?![\w."'])""")


def explain_line(line, model=None, tapes=(), words=(), dump=None):
    """What a line of `mj` means: a refusal, a verdict or a trace's end, as a list of lines. Unusable where it is none.

    `model`, `tapes` and `dump` are the files' names, to tell the line; `words` those that mj was called with.
    """
    parts = line.split()
    told = [line]
    if parts[:2] == ["refused", "words"] and len(parts) == 3:
        return told + _words(int(parts[2]), words)
    if parts[:2] == ["refused", "model"] and len(parts) in (3, 4):
        return told + _model(parts[2], parts[3] if len(parts) == 4 else "", model)
    if parts[:2] == ["refused", "tape"] and len(parts) > 3:
        return told + _tape(int(parts[2]), parts[3], [int(part) for part in parts[4:]], tapes)
    if parts[:1] == ["rejected"] and len(parts) == 3 and parts[1].isdigit():
        return told + _rejected(int(parts[1]), parts[2], dump)
    if parts[:1] == ["accepted"] and len(parts) == 2 and parts[1].isdigit():
        return told + [advice.ACCEPTED]
    if line == "end done":
        return told + ["All steps that were asked for were done."]
    if early := EARLY_END.fullmatch(line.encode()):
        return told + _end(int(early[1]), early[2].decode(), int(early[3]), model)
    raise Unusable(f"no refusal or end of mj: {line[:200]}")


def explain_status(status):
    """What a status of `mj` means."""
    if status not in advice.STATUSES:
        raise Unusable(f"mj has no status {status}")
    return [f"status {status}", advice.STATUSES[status]] + [advice.USAGE] * (status == 2)


def explain_model(path, mj=None):
    """What `mj` says of a model when it runs one step of it, where the program is given, and what else looks amiss."""
    try:
        text, document = load_document(path)
    except ModelError as fault:
        return [str(fault), _toml_advice()]
    told = []
    if mj:
        _, line = outcome(mj, ["run", "--model", str(path), "--steps", "1"])
        told = explain_line(line, path) if line != "end done" else [f"{path}: mj accepts it and does its first step."]
    found = [f"{_where(path, text, place)}: {place}: {what}" for place, what in findings(document)]
    if not mj:
        told = [
            "mj isn't built, so only what looks amiss is told."
            if found
            else f"{path}: nothing looks amiss; mj isn't built, so it wasn't asked."
        ]
    return told + found


def explain_tape(path, model=None):
    """The first fault of a tape, for the model's motors or, without a model, for as many as its first record has."""
    first = record(path, 1)
    if first is None:
        return [f"{path}: it has no record: without motors or steps that is all right."]
    motors = len(read_model(model).motors) if model else len(first.fields)
    fault = first_fault(path, motors)
    if fault:
        return explain_line(f"refused tape 1 {fault}", model, [path])
    return [f"{path}: each record has {motors} numbers{', one for each motor' if model else ''}."]


def explain_trace(path, model=None):
    """How a trace ended, and how good its forces are."""
    trace = read(path, only=("q", "v", "rows", "stop", "cost"))
    if model:
        read_model(model).check(trace)
    end = trace.end
    line = "end done" if end.is_done else f"end out-of-range step={end.step} kind={end.kind} index={end.index}"
    return [f"{path}: {len(trace)} of {trace.asked} steps"] + explain_line(line, model) + verdict(trace)


def _words(place, words):
    told = []
    if words:
        marked = [f">{word}<" if at == place else word for at, word in enumerate(words, 1)]
        told.append("mj " + " ".join(marked + [">..<"] * (place > len(words))))
    return told + [f"Word {place} isn't one that fits there, or is missing. The commands are:", advice.USAGE]


def _model(code, path, model):
    key = path.rpartition(".")[2].partition("[")[0]
    what = advice.KEYS.get(f"{code} {key}") or advice.MODEL_CODES.get(code)
    if what is None:
        raise Unusable(f"mj has no code {code}")
    if not model:
        return [what]
    try:
        text, document = load_document(model)
    except ModelError as fault:
        return [str(fault), _toml_advice()]
    if code == "NotToml":
        return [f"{model}: Python's reader of TOML accepts it. " + _toml_advice()]
    if code == "UnknownKey":
        what = unknown_key(path, document)
    return _shown(model, text, path, named(document, path)) + [what] + _quoted(code, model, text, path)


def _shown(path, text, place, name=""):
    """The line of a place in the file, and what stands there."""
    line = line_of(text, place)
    if not line:
        return []
    return [f"{path}:{line}: {text.splitlines()[line - 1].strip()}" + (f"    ({name})" if name else "")]


def _quoted(code, path, text, place):
    """For FloatValue the line with its numbers in quotes."""
    line = line_of(text, place)
    if code != "FloatValue" or not line:
        return []
    return ["Write: " + FLOAT.sub(r'"\1"', text.splitlines()[line - 1].strip())]


def _rejected(number, reason, path):
    if reason not in advice.REASONS:
        raise Unusable(f"mj has no reason {reason}")
    return _line(path, number) + [advice.REASONS[reason]]


def _line(path, number):
    """What stands in this line of a file."""
    if not path:
        return []
    with open(path, "rb") as file:
        found = next(itertools.islice(file, number - 1, None), None)
    if found is None:
        return [f"{path}:{number}: the file has no such line: it ends before"]
    shown = found[:100].decode(errors="replace").rstrip("\n")
    return [f"{path}:{number}: {shown}" + " .." * (len(found) > 101)]


def _where(path, text, place):
    line = line_of(text, place)
    return f"{path}:{line}" if line else str(path)


def _toml_advice():
    return "Texts stand in quotes, tables begin with [option] or [[body]], and a key stands once in a table."


def _tape(number, fault, counts, tapes):
    path = tapes[number - 1] if number <= len(tapes) else None
    one = record(path, counts[0]) if path and fault in ("Width", "BadNumber") else None
    where = f"{path}:{one.line}: " if one else ""
    told = [where + ",".join(one.fields)[:100]] if one else []
    if fault == "TooLarge":
        return told + ["The file has more than 67,108,864 bytes, or the tapes more than 4,000,000 values together."]
    if fault == "Short":
        return told + [f"It has {counts[0]} records, fewer than steps: one record for each step."]
    if fault == "Width":
        has = f"has {len(one.fields)} fields" if one else "hasn't one field for each motor"
        return told + [
            f"Record {counts[0]} {has}: a record has one number for each motor of the model, in its order."
        ]
    if fault != "BadNumber":
        raise Unusable(f"mj has no fault of a tape {fault}")
    told.append(f"Field {counts[1]} of record {counts[0]} is no number of at most 1,048,576 in size.")
    if counts[0] == 1 and (one is None or not any(map(is_control, one.fields))):
        told.append(
            "Is it a line of headers? A tape has none: delete it. Spaces beside the commas aren't allowed either."
        )
    return told


def _end(step, kind, index, model):
    if kind not in advice.KINDS:
        raise Unusable(f"mj has no kind {kind}")
    counted, what, to_do = advice.KINDS[kind]
    name, shown = _object(kind, counted, index, model)
    told = [f"Step {step} wasn't done: {counted} {index}{name}: {what}."] + shown + [to_do]
    if kind == "Pivot" and step == 1:
        told.insert(1, "In the first step that is a joint without mass on it.")
    return told


def _object(kind, counted, index, path):
    """The name of what an index counts, and its line in the model's file."""
    if not path:
        return "", []
    model = read_model(path)
    lists = {"body": model.bodies, "geom": model.geoms, "dof": _by_dof(model), "place in q": _by_position(model)}
    objects = lists.get(counted, [])
    if not 0 < index <= len(objects):
        return "", []
    found = objects[index - 1]
    names = {"dof": model.velocity_names, "place in q": model.position_names}.get(counted)
    name = names[index - 1] if names else found.name
    return f" ({name})" if name else "", _shown(path, load_document(path)[0], found.place)


def _by_dof(model):
    return [joint for joint in model.joints for _ in range(joint.nv)]


def _by_position(model):
    return [joint for joint in model.joints for _ in range(joint.nq)]
