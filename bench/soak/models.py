"""Models, tapes and words by chance, for soak.py: most are accepted, some are refused, some leave every range."""

WORDS = (
    "run gen bench batch check inverse --model --steps --tape --dual --ball --workers --links --seed yes no 0 1 2 3 64 "
    "65 007 -1 +1 1e3 1000001 18446744073709551616 model.toml tape.csv missing . -- --help --model=model.toml"
).split() + ["", " ", "\t", "ä", "x" * 4096, "x" * 4097]
PIECES = (
    "0.5 1e-8 -0 00 nan inf true [] {} [[body]] [option] [[geom]] format=2 format=3 = \" ' \n \0 # , . \xff "
    "quat=[0,0,0,0] mass=-1 mass=1e9 range=[1,1] size=[] type=\"free\" type=\"box\" parent=\"world\" solref=[1,-1] "
    "condim=4 name=\"world\""
).split(" ")


def number(value):
    """A number as a model has it."""
    return str(int(value)) if value == int(value) else f'"{value:.9g}"'


def numbers(values):
    return "[" + ", ".join(number(value) for value in values) + "]"


class Model:
    """A random model. `text` is its TOML, `motors` how many numbers a record of its tape has."""

    def __init__(self, random):
        self.random = random
        self.wild = random.random() < 0.2
        self.format = random.choice((1, 1, 2))
        self.scalars, self.kinds, self.lines = [], [], []
        self.motors = 0
        self.option()
        self.bodies()
        self.others()
        self.text = "\n".join(self.lines) + "\n"

    def chance(self, share):
        return self.random.random() < share

    def size(self, low=0.01, high=2.0):
        """A size between the two, evenly by its logarithm; now and then far outside in a wild model."""
        value = low * (high / low) ** self.random.random()
        if self.wild and self.chance(0.1):
            value *= 10 ** self.random.uniform(-9, 6)
        return value

    def signed(self, high=2.0):
        return self.random.choice((-1, 1)) * self.size(high / 100, high) if self.chance(0.7) else 0

    def three(self, high=2.0):
        return numbers(self.signed(high) for _ in range(3))

    def quaternion(self):
        return numbers(self.random.choice((-1, 0, 1, self.signed(1))) for _ in range(3)).replace("[", "[1, ")

    def option(self):
        choose = self.random.choice
        if self.format == 2:
            self.lines.append("format = 2")
        self.lines += [
            "[option]",
            f"timestep = {number(choose((0.002, 0.001953125, 0.01, 0.25)))}",
            f"iterations = {choose((1, 2, 5, 30, 100))}",
            f"tolerance = {choose((0, number(1e-8), number(1e-3)))}",
            f"njmax = {choose((512, 512, 64, 8))}",
        ]
        if self.chance(0.5):
            self.lines.append(f"gravity = {self.three(20)}")
        if self.chance(0.6):
            self.lines += ["[[geom]]", 'type = "plane"', f"pos = [0, 0, {number(-self.size(0.01, 1))}]"]

    def bodies(self):
        for body in range(self.random.randint(1, 7)):
            parent = self.random.randrange(body) if body and self.chance(0.7) else None
            self.lines += ["[[body]]", f'name = "b{body}"', f"pos = {self.three(1)}"]
            if parent is not None:
                self.lines.append(f'parent = "b{parent}"')
            if self.chance(0.4):
                self.lines.append(f"quat = {self.quaternion()}")
            if self.chance(0.97):
                mass, inertia = number(self.size(0.1, 5)), numbers(self.size(0.01, 1) for _ in range(3))
                self.lines.append(f"inertial = {{ mass = {mass}, pos = {self.three(0.3)}, diaginertia = {inertia} }}")
            self.joints(parent is None)
            for _ in range(self.random.choice((0, 1, 1, 2))):
                self.geom()

    def joints(self, is_root):
        if is_root and self.chance(0.5):
            self.kinds.append("free")
            self.lines += ["[[body.joint]]", 'type = "free"']
            return
        for _ in range(self.random.choice((0, 1, 1, 1, 2))):
            kind = self.random.choice(("hinge", "hinge", "slide", "ball"))
            self.kinds.append(kind)
            self.lines += ["[[body.joint]]", f'type = "{kind}"', f"damping = {number(self.size(0.01, 1))}"]
            if kind != "ball":
                self.scalar_joint()

    def scalar_joint(self):
        name = f"j{len(self.scalars)}"
        self.scalars.append(name)
        axis = numbers(self.random.choice(((1, 0, 0), (0, 1, 0), (0, 0, 1), (1, 1, 0), (1, 2, 3))))
        self.lines += [f'name = "{name}"', f"axis = {axis}", f"armature = {number(self.size(0.001, 0.1))}"]
        if self.chance(0.5):
            self.lines.append(f"range = {numbers((-self.size(), self.size()))}")
            self.lines.append(f"margin = {number(self.random.choice((0, 0.1)))}")
        if self.chance(0.3):
            self.lines.append(f"stiffness = {number(self.size(1, 100))}")
        if self.format == 2 and self.chance(0.4):
            self.lines.append(f"frictionloss = {number(self.size(0.01, 5))}")

    def geom(self):
        kind = self.random.choice(("sphere", "capsule"))
        self.lines += ["[[body.geom]]", f'type = "{kind}"', f"pos = {self.three(0.3)}", f"quat = {self.quaternion()}"]
        self.lines.append(f"size = {numbers((self.size(0.05, 0.3), self.size(0.05, 0.5)))}")
        if self.chance(0.4):
            self.lines.append(f"condim = {self.random.choice((1, 3))}\nfriction = [{number(self.size(0.1, 2))}]")
        if self.chance(0.2):
            self.lines.append(f"contype = {self.random.choice((0, 1, 2))}\nsolref = [-1000, -10]")

    def others(self):
        some = self.random.sample(self.scalars, min(len(self.scalars), 3))
        if some and self.chance(0.4):
            terms = ", ".join(f'{{ joint = "{name}", coef = {number(self.signed() or 1)} }}' for name in some)
            self.lines += ["[[tendon]]", 'name = "t"', f"joint = [{terms}]"]
            self.lines.append(f"stiffness = {number(self.size(0.1, 10))}")
            if self.chance(0.5):
                self.lines.append(f"range = {numbers((-self.size(), self.size()))}")
        for name in some:
            if self.chance(0.6):
                self.motors += 1
                self.lines += ["[[motor]]", f'joint = "{name}"', f"gear = {number(self.signed(10) or 1)}"]
        if self.format == 2 and len(some) > 1 and self.chance(0.6):
            self.lines += ["[[equality]]", f'joint1 = "{some[0]}"', f'joint2 = "{some[1]}"', "polycoef = [0, 1]"]
        counts = {"free": 6, "ball": 3}
        if self.chance(0.4):
            velocities = [self.signed(3) for kind in self.kinds for _ in range(counts.get(kind, 1))]
            self.lines += ["[keyframe]", f"qvel = {numbers(velocities)}"]

    def tape(self, steps):
        records = self.random.choice((steps, steps, steps + 2))
        lines = [
            ",".join(f"{self.signed(2):.6g}" for _ in range(self.motors)) for _ in range(records if self.motors else 0)
        ]
        return "".join(line + "\n" for line in lines)


def damaged(text, random):
    """The bytes of a text after some changes by chance."""
    data = bytearray(text.encode("latin-1", "replace"))
    for _ in range(random.choice((1, 1, 2, 5))):
        at = random.randrange(len(data) + 1)
        piece = random.choice(PIECES).encode("latin-1")
        way = random.randrange(5)
        if way == 0:
            data[at:at] = piece
        elif way == 1:
            data[at : at + random.choice((1, 1, 2, 9, 40))] = b""
        elif way == 2 and at < len(data):
            data[at] = random.randrange(256)
        elif way == 3:
            del data[at:]
        else:
            begin = data.rfind(b"\n", 0, at) + 1
            end = data.find(b"\n", at) + 1 or len(data)
            data[end:end] = data[begin:end]
    return bytes(data)


def digit_changed(text, random):
    """A dump with a number changed, a line gone or twice, or any other damage."""
    data = bytearray(text)
    way = random.randrange(6)
    if way == 0 or not data:
        return damaged(text.decode("latin-1"), random)
    if way == 1:
        lines = text.splitlines(True)
        at = random.randrange(len(lines))
        lines[at : at + 1] = random.choice(([], [lines[at]] * 2))
        return b"".join(lines)
    places = [at for at, byte in enumerate(data) if 48 <= byte < 58]
    at = random.choice(places)
    data[at] = random.randrange(48, 58)
    return bytes(data)
