"""What a newcomer's model often lacks, found without running it."""

import difflib
import math

from .advice import FORMAT_2, LEFT_OUT
from .keys import TABLES, table_of
from .numerals import numeral


def keys(table, path=""):
    """Yields each key of a document's tables with its path and its value, in the order of the file."""
    for key, value in table.items():
        place = f"{path}.{key}" if path else key
        yield place, value
        if isinstance(value, dict):
            yield from keys(value, place)
        for number, item in enumerate(value if isinstance(value, list) else (), 1):
            if isinstance(item, dict):
                yield from keys(item, f"{place}[{number}]")


def named(document, path):
    """The objects on the way to a path with their names, as 'body "fore", joint "elbow"'; "" where none has one."""
    words, at = [], document
    for word in path.split("."):
        key, _, place = word.partition("[")
        at = at.get(key) if isinstance(at, dict) else None
        if place and isinstance(at, list) and 0 < int(place[:-1]) <= len(at):
            at = at[int(place[:-1]) - 1]
            if isinstance(at, dict) and isinstance(at.get("name"), str):
                words.append(f'{key} "{at["name"]}"')
    return ", ".join(words)


def unknown_key(path, document):
    """What to do about a key that its table doesn't have."""
    key = path.rpartition(".")[2]
    if key in FORMAT_2 and document.get("format") != 2:
        return f"{key} belongs to format 2: write 'format = 2' as the first line of the file, above all tables."
    if key in LEFT_OUT:
        return f"{key} isn't part of this format: {LEFT_OUT[key]}."
    table = table_of(path)
    near = difflib.get_close_matches(key, TABLES.get(table, ()), n=1)
    if near:
        return f"Is {near[0]} meant? A key stands under the table whose header is above it."
    return f"The keys here are {', '.join(sorted(TABLES.get(table, ())))}."


def findings(document):
    """What is likely to fail or to be meant otherwise: pairs of a path and what to do, in the order of the file."""
    found = []
    for path, value in keys(document):
        key, table = path.rpartition(".")[2], table_of(path)
        if table in TABLES and (key not in TABLES[table] or (key in FORMAT_2 and document.get("format") != 2)):
            found.append((path, f"{unknown_key(path, document)} (UnknownKey)"))
        for number in value if isinstance(value, list) else [value]:
            if isinstance(number, float):
                found.append((path, f'write the number as text, in quotes: "{number!r}" (FloatValue)'))
    return found + _bodies(document)


def _bodies(document):
    bodies = [body for body in document.get("body", []) if isinstance(body, dict)]
    found = []
    for k, body in enumerate(bodies, 1):
        found += _weightless(bodies, k, body)
        for j, joint in enumerate(body.get("joint", []), 1):
            found += _degrees(f"body[{k}].joint[{j}]", joint)
        for g, geom in enumerate(body.get("geom", []), 1):
            found += _capsule(f"body[{k}].geom[{g}]", geom)
    return found


def _weightless(bodies, k, body):
    """A joint that moves nothing of weight: its pivot is 0 in the first step."""
    moved = {body.get("name")}
    for below in bodies[k:]:
        if below.get("parent") in moved:
            moved.add(below.get("name"))
    has_mass = any(
        isinstance(b.get("inertial"), dict) and _value(b["inertial"].get("mass", 0))
        for b in bodies
        if b.get("name") in moved
    )
    joints = [j for j, joint in enumerate(body.get("joint", []), 1) if not _value(joint.get("armature", 0))]
    if has_mass or not joints:
        return []
    what = (
        "nothing of weight hangs on this joint: give the body an inertial table, as { mass = 1, diaginertia = [..] }"
    )
    return [(f"body[{k}].joint[{joints[0]}]", f"{what} (Pivot in step 1)")]


def _degrees(path, joint):
    """A hinge's angles past a whole turn: they are likely meant in degrees."""
    if joint.get("type", "hinge") != "hinge":
        return []
    ends = joint.get("range", []) if isinstance(joint.get("range"), list) else []
    if any(abs(_value(end)) > 2 * math.pi for end in ends):
        return [(f"{path}.range", "angles are radians, and this is more than a turn: are these degrees?")]
    return []


def _capsule(path, geom):
    if geom.get("type") == "capsule" and isinstance(geom.get("size"), list) and len(geom["size"]) < 2:
        return [(f"{path}.size", "a capsule has two sizes, its radius and half its length (BadRange)")]
    return []


def _value(number):
    """A number of the document as a double; 0 where it is none."""
    try:
        return numeral(number) / 2**32 if isinstance(number, str) else float(number)
    except (TypeError, ValueError):
        return 0.0
