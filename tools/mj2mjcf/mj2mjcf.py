#!/usr/bin/env python3
"""Turns a model of mj (TOML) into MJCF, for MuJoCo's viewer and for measures beside MuJoCo.

usage: mj2mjcf.py [--explicit] MODEL.toml > MODEL.xml

MuJoCo's Euler step takes damping implicitly and mj's explicitly. So that both move alike, armature is written less
timestep x damping where that leaves it at 0 or more; with --explicit it is written as it is, and then the accelerations
of one state are the same. Findings are lines on standard error, `other|note: OBJECT: what`. Status: 0 written, 1 the
file can't be read or is no model, 2 the words are wrong."""
import sys
import tomllib
from xml.sax.saxutils import quoteattr

SCALAR_KEYS = (
    "pos",
    "axis",
    "range",
    "margin",
    "stiffness",
    "springref",
    "damping",
    "frictionloss",
    "solreflimit",
    "solimplimit",
    "solreffriction",
    "solimpfriction",
)
GEOM_KEYS = ("pos", "quat", "contype", "conaffinity", "condim", "friction", "margin", "solref", "solimp")
TENDON_KEYS = ("margin", "damping", "solreflimit", "solimplimit")
POSITIONS = {"free": 7, "ball": 4, "hinge": 1, "slide": 1}
VELOCITIES = {"free": 6, "ball": 3, "hinge": 1, "slide": 1}
LEAST_INERTIA = 1e-14  # above MuJoCo's least, for moving bodies without mass or inertia
OPTIONS = {"timestep": "0.002", "gravity": [0, 0, "-9.81"], "iterations": 100, "tolerance": "1e-8"}
LOOKS = (
    '<asset><texture name="grid" type="2d" builtin="checker" width="512" height="512" rgb1=".7 .7 .7" rgb2=".8 .8 .8"/>'
    '<material name="grid" texture="grid" texrepeat="1 1" texuniform="true"/></asset>\n'
)


class Fault(Exception):
    """The file isn't a model of mj."""


def tell(kind, what):
    print(f"{kind}: {what}", file=sys.stderr)


def number(value):
    """The shortest decimal of a number of the model, which is an integer or a numeral in a text."""
    if isinstance(value, float):
        raise Fault(f"{value} is a TOML float; mj takes an integer or a numeral in quotes")
    if isinstance(value, int):
        return str(value)
    return repr(float(value))


def attribute(name, value):
    text = " ".join(map(number, value)) if isinstance(value, list) else number(value)
    return f' {name}="{text}"'


def attributes(table, keys):
    return "".join(attribute(key, table[key]) for key in keys if key in table)


def named(table):
    return f" name={quoteattr(table['name'])}" if "name" in table else ""


def limited(table, key="range", flag="limited"):
    if key not in table:
        return f' {flag}="false"'
    return attribute(key, table[key]) + f' {flag}="true"'


def armature_of(joint, timestep, explicit):
    """Armature as MuJoCo's step wants it, or as it is."""
    armature, damping = float(joint.get("armature", 0)), float(joint.get("damping", 0))
    if explicit or not damping:
        return armature
    less = armature - timestep * damping
    if less < 0:
        tell(
            "other",
            f"joint ({joint.get('name', '')}): armature is below timestep x damping: MuJoCo's steps damp it more",
        )
        return armature
    return less if less > 1e-15 * armature else 0.0


def joint_element(joint, name, timestep, explicit):
    kind = joint.get("type", "hinge")
    text = f'<joint name={quoteattr(name)} type="{kind}"'
    text += attributes(joint, [key for key in SCALAR_KEYS if key != "range"])
    text += limited(joint) if kind in ("hinge", "slide") else ""
    armature = armature_of(joint, timestep, explicit)
    return text + (f' armature="{armature!r}"' if armature else "") + "/>"


def geom_element(geom):
    kind = geom.get("type", "sphere")
    text = f'<geom{named(geom)} type="{kind}"'
    text += ' size="0 0 1" material="grid"' if kind == "plane" else attribute("size", geom["size"])
    return text + attributes(geom, GEOM_KEYS) + "/>"


def inertial_element(body, moves):
    table = body.get("inertial", {"mass": 0})
    mass = float(table["mass"])
    inertia = [float(x) for x in table.get("diaginertia", [0, 0, 0])]
    if moves and (mass < LEAST_INERTIA or min(inertia) < LEAST_INERTIA):
        mass, inertia = max(mass, LEAST_INERTIA), [max(x, LEAST_INERTIA) for x in inertia]
    elif not mass:
        return ""
    a, b, c = sorted(inertia)
    if a + b < c * (1 - 1e-12):
        tell("other", f"body ({body['name']}): MuJoCo refuses inertias of which one is above the sum of the others")
    text = " ".join(repr(x) for x in inertia)
    place = attribute("pos", table.get("pos", [0, 0, 0])) + attributes(table, ["quat"])
    return f'<inertial{place} mass="{mass!r}" diaginertia="{text}"/>'


class Bodies:
    """The tree of a model's bodies, by their places in the file."""

    def __init__(self, bodies):
        self.bodies = bodies
        places = {body["name"]: i for i, body in enumerate(bodies)}
        self.parent = [places[body["parent"]] if body.get("parent", "world") != "world" else -1 for body in bodies]
        self.below = {}
        for i, parent in enumerate(self.parent):
            self.below.setdefault(parent, []).append(i)

    def carrier(self, i):
        """The body that carries body i: itself, or the next above with a joint; -1 the world."""
        while i >= 0 and not self.bodies[i].get("joint"):
            i = self.parent[i]
        return i

    def depth_first(self, i=-1):
        for child in self.below.get(i, []):
            yield child
            yield from self.depth_first(child)

    def judge(self):
        if list(self.depth_first()) != list(range(len(self.bodies))):
            tell("note", "model: its bodies aren't depth first: MuJoCo numbers joints and geoms in another order")

    def in_order(self, numbers, sizes):
        """Numbers of the joints in the file's order, in MuJoCo's. sizes: how many each type of joint has."""
        parts, at = [], 0
        for body in self.bodies:
            count = sum(sizes[joint.get("type", "hinge")] for joint in body.get("joint", []))
            parts.append(numbers[at : at + count])
            at += count
        return [number for i in self.depth_first() for number in parts[i]]

    def judge_welds(self):
        welded = [
            body["name"] for i, body in enumerate(self.bodies) if body.get("geom") and self.carrier(i) not in (i, -1)
        ]
        if welded:
            tell(
                "other",
                f"body ({welded[0]}): MuJoCo filters the contacts of a body without joints by the body that carries it",
            )


def body_element(tree, i, timestep, explicit):
    body = tree.bodies[i]
    text = f"<body name={quoteattr(body['name'])}{attributes(body, ('pos', 'quat'))}>"
    text += inertial_element(body, bool(body.get("joint")))
    text += "".join(
        joint_element(joint, joint.get("name", f"joint_{i + 1}_{k + 1}"), timestep, explicit)
        for k, joint in enumerate(body.get("joint", []))
    )
    text += "".join(map(geom_element, body.get("geom", []))) + "\n"
    return (
        text + "".join(body_element(tree, child, timestep, explicit) for child in tree.below.get(i, [])) + "</body>\n"
    )


def flipped(tendon):
    """The tendon measured the other way: MJCF has no springlength below 0."""
    turned = dict(tendon)
    turned["joint"] = [{"joint": x["joint"], "coef": repr(-float(x["coef"]))} for x in tendon["joint"]]
    turned["springlength"] = repr(-float(tendon["springlength"]))
    if "range" in tendon:
        turned["range"] = [repr(-float(x)) for x in reversed(tendon["range"])]
    return turned


def backwards(tendon):
    return float(tendon.get("stiffness", 0)) > 0 and float(tendon.get("springlength", 0)) < 0


def tendon_element(tendon):
    if backwards(tendon):
        tell(
            "note",
            f"tendon ({tendon.get('name', '')}): counted the other way, since MJCF has no springlength below 0",
        )
        tendon = flipped(tendon)
    text = f"<fixed{named(tendon)}{attributes(tendon, TENDON_KEYS)}{limited(tendon)}"
    if float(tendon.get("stiffness", 0)) > 0:
        text += attributes(tendon, ("stiffness",)) + attribute("springlength", tendon.get("springlength", 0))
    joints = "".join(f"<joint joint={quoteattr(x['joint'])}{attribute('coef', x['coef'])}/>" for x in tendon["joint"])
    return f"{text}>{joints}</fixed>\n"


def motor_element(motor, tendons):
    gear = float(motor.get("gear", 1))
    if "tendon" in motor and backwards(tendons[motor["tendon"]]):
        gear = -gear
    target = "joint" if "joint" in motor else "tendon"
    return (
        f'<motor{named(motor)} {target}={quoteattr(motor[target])} gear="{gear!r}"'
        f"{limited(motor, 'ctrlrange', 'ctrllimited')}/>\n"
    )


def equality_element(equality):
    second = f" joint2={quoteattr(equality['joint2'])}" if "joint2" in equality else ""
    coefs = (equality.get("polycoef", [0, 1]) + [1])[:2] + [0, 0, 0]
    return (
        f"<joint{named(equality)} joint1={quoteattr(equality['joint1'])}{second}{attribute('polycoef', coefs)}"
        f"{attributes(equality, ('solref', 'solimp'))}/>\n"
    )


def key_element(tree, key):
    text = "<key"
    for name, sizes in (("qpos", POSITIONS), ("qvel", VELOCITIES)):
        text += attribute(name, tree.in_order(key[name], sizes)) if name in key else ""
    return text + "/>\n"


def section(tag, elements):
    return f"<{tag}>\n{''.join(elements)}</{tag}>\n" if elements else ""


def mjcf(model, explicit=False):
    """The MJCF text of a model, as the table that tomllib gives."""
    option = OPTIONS | model.get("option", {})
    timestep = float(option["timestep"])
    tree = Bodies(model.get("body", []))
    tree.judge()
    tree.judge_welds()
    tendons = {tendon.get("name"): tendon for tendon in model.get("tendon", [])}
    world = [geom_element(geom) + "\n" for geom in model.get("geom", [])]
    world += [body_element(tree, i, timestep, explicit) for i in tree.below.get(-1, [])]
    text = '<mujoco>\n<compiler angle="radian" inertiafromgeom="false" boundmass="0" boundinertia="0"/>\n'
    text += f'<option{attributes(option, OPTIONS)} integrator="Euler" cone="pyramidal" solver="PGS" jacobian="dense">'
    text += '<flag refsafe="disable" warmstart="disable"/></option>\n<size njmax="2000" nconmax="500"/>\n'
    text += LOOKS + section("worldbody", ['<light pos="0 0 10" dir="0 0 -1" directional="true"/>\n'] + world)
    text += section("tendon", [tendon_element(tendon) for tendon in model.get("tendon", [])])
    text += section("equality", [equality_element(equality) for equality in model.get("equality", [])])
    text += section("actuator", [motor_element(motor, tendons) for motor in model.get("motor", [])])
    text += section("keyframe", [key_element(tree, model["keyframe"])] if "keyframe" in model else [])
    return text + "</mujoco>\n"


def main(words):
    explicit = "--explicit" in words
    files = [word for word in words if word != "--explicit"]
    if len(files) != 1 or files[0].startswith("-"):
        print(__doc__.split("\n\n")[1], file=sys.stderr)
        return 2
    try:
        with open(files[0], "rb") as file:
            text = mjcf(tomllib.load(file), explicit)
    except OSError as fault:
        print(f"mj2mjcf: {files[0]}: {fault.strerror}", file=sys.stderr)
        return 1
    except (tomllib.TOMLDecodeError, UnicodeDecodeError) as fault:
        print(f"mj2mjcf: {files[0]}: no TOML document: {fault}", file=sys.stderr)
        return 1
    except (Fault, KeyError, ValueError, TypeError, AttributeError) as fault:
        print(
            f"mj2mjcf: {files[0]}: no model of mj ({type(fault).__name__}: {fault}); `mj run` names the fault",
            file=sys.stderr,
        )
        return 1
    sys.stdout.write(text)
    return 0


if __name__ == "__main__":
    sys.exit(main(sys.argv[1:]))
