#!/usr/bin/env python3
"""How near the first step of `mj` is to MuJoCo's, by the figures of figures.json (measure.py made them by MuJoCo).

usage: near.py MJ

Ten models without rows: the accelerations, within 1e-6 of the largest entry. Five with contacts: the numbers of rows
and contacts, and each contact's distance, normal and lever arms within 1e-6. In those every body is free, has mass 1
and inertia 1 and is at rest, so a row of G is the Jacobian J; the mean of a contact's edges is its normal row. And with
the constant impedance d and the stiffness k the right side is b = J a + (k / d) distance, a that of gravity."""
import json
import os
import subprocess
import sys
import tomllib

HERE = os.path.dirname(os.path.abspath(__file__))
TOP = os.path.join(HERE, "..", "..")
NEAR = 1e-6
IMPEDANCE, STIFFNESS = 0.9, 1000  # solimp and solref of the models with contacts


class Differs(Exception):
    """What isn't as MuJoCo has it."""


def first_block(program, name):
    """The first step's lines by their first word, each as its fields."""
    words = [program, "run", "--model", os.path.join(TOP, name + ".toml"), "--steps", "1", "--dual", "yes"]
    tape = os.path.join(TOP, name + ".csv")
    run = subprocess.run(words + (["--tape", tape] if os.path.exists(tape) else []), capture_output=True, text=True)
    block = {}
    for line in run.stdout.splitlines():
        word, *fields = line.split(" ")
        block.setdefault(word, []).append(fields)
    if run.returncode or "a" not in block:
        raise Differs(f"status {run.returncode}: {run.stdout[-80:].strip()}")
    return block


def acceleration(program, name, theirs):
    """The largest difference, relative to the largest entry."""
    ours = [int(field) / 2**32 for field in first_block(program, name)["a"][0]]
    if len(ours) != len(theirs):
        raise Differs(f"{len(ours)} velocities and {len(theirs)}")
    worst = max(abs(x - y) for x, y in zip(ours, theirs)) / max(map(abs, theirs))
    if worst > NEAR:
        raise Differs(f"acceleration {worst:.2g} apart")
    return worst


def cross(a, b):
    return [a[1] * b[2] - a[2] * b[1], a[2] * b[0] - a[0] * b[2], a[0] * b[1] - a[1] * b[0]]


def normal_row(contact, places):
    """J of MuJoCo's contact along its normal: for each free body six numbers, linear and angular."""
    row = [0.0] * (6 * len(places))
    for body, sign in zip(contact["bodies"], (-1, 1)):
        if body:
            arm = [p - c for p, c in zip(contact["point"], places[body - 1])]
            row[6 * body - 6 : 6 * body] = [sign * x for x in contact["normal"] + cross(arm, contact["normal"])]
    return row


def our_contacts(block, gravity):
    """Each contact as (distance, normal row), by the dual's rows."""
    contact_of = {fields[0]: fields[2] for fields in block.get("row", []) if fields[1] == "contact"}
    edges = {}
    for fields in block.get("d", []):
        row = [int(field) / 2**24 for field in fields[3:]]
        edges.setdefault(contact_of[fields[0]], []).append((int(fields[2]) / 2**32, row))
    found = []
    for rows in edges.values():
        b = sum(side for side, _ in rows) / len(rows)
        normal = [sum(column) / len(rows) for column in zip(*(row for _, row in rows))]
        fall = sum(x * gravity[k % 6] for k, x in enumerate(normal) if k % 6 < 3)
        found.append(((b - fall) * IMPEDANCE / STIFFNESS, normal))
    return found


def apart(ours, theirs):
    return max(abs(x - y) for x, y in zip([ours[0]] + ours[1], [theirs[0]] + theirs[1]))


def contacts(program, name, figures):
    """The largest difference of a contact's distance, normal or arm."""
    with open(os.path.join(TOP, name + ".toml"), "rb") as file:
        model = tomllib.load(file)
    block = first_block(program, name)
    places = [[float(x) for x in body["pos"]] for body in model["body"]]
    gravity = [float(x) for x in model.get("option", {}).get("gravity", [0, 0, "-9.81"])]
    ours = our_contacts(block, gravity)
    if int(block["rows"][0][0]) != figures["rows"] or len(ours) != len(figures["contacts"]):
        raise Differs(
            f"rows {block['rows'][0][0]} and {figures['rows']}, contacts {len(ours)} and {len(figures['contacts'])}"
        )
    worst = 0
    for contact in figures["contacts"]:
        theirs = contact["distance"] - margin_of(model, contact), normal_row(contact, places)
        nearest = min(ours, key=lambda one: apart(one, theirs))
        ours.remove(nearest)
        worst = max(worst, apart(nearest, theirs))
    if worst > NEAR:
        raise Differs(f"a contact {worst:.2g} apart")
    return worst


def margin_of(model, contact):
    """The margin of a contact, from which its violation counts: the larger of both bodies' (a geom each)."""
    geoms = [model["body"][body - 1]["geom"] if body else model["geom"] for body in contact["bodies"]]
    return max(float(table[0].get("margin", 0)) for table in geoms)


def main(program):
    with open(os.path.join(HERE, "figures.json"), encoding="utf-8") as file:
        figures = json.load(file)
    kinds = (("accelerations", acceleration), ("contacts", contacts))
    agree, worst = {}, {}
    for kind, compare in kinds:
        agree[kind], worst[kind] = 0, 0
        for name, theirs in figures[kind].items():
            try:
                worst[kind] = max(worst[kind], compare(program, name, theirs))
                agree[kind] += 1
            except Differs as fault:
                print(f"near: {name}: {fault}")
    whole = {kind: len(figures[kind]) for kind, _ in kinds}
    print(
        f"near: MuJoCo {figures['MuJoCo']}: "
        f"{agree['accelerations']} of {whole['accelerations']} accelerations agree (within {worst['accelerations']:.1e}), "
        f"{agree['contacts']} of {whole['contacts']} models with contacts (within {worst['contacts']:.1e})"
    )
    return 0 if agree == whole else 1


if __name__ == "__main__":
    if len(sys.argv) != 2:
        print("usage: near.py MJ", file=sys.stderr)
        sys.exit(2)
    sys.exit(main(sys.argv[1]))
