"""Random MJCF: trees of bodies with joints of every type, welded and still bodies, geoms with masks, softness, priority
and margins, pairs and excludes, tendons, motors, servos, equalities, flags. One seed is one model."""
import random

WHOLE = ("sphere", "capsule")
FOREIGN_GEOMS = ("box", "cylinder", "ellipsoid")
FLAGS = (
    "constraint",
    "equality",
    "frictionloss",
    "limit",
    "contact",
    "passive",
    "gravity",
    "clampctrl",
    "filterparent",
    "actuation",
    "refsafe",
)


class Maker:
    def __init__(self, seed):
        self.random = random.Random(seed)
        # What mj has nothing for stands in a third of the models: each is to be told by these words.
        self.foreign = self.random.random() < 0.33
        self.told = []
        self.joints, self.geoms, self.bodies, self.tendons = [], [], [], []
        self.joint_count = 0
        self.degrees = self.random.random() < 0.3

    def chance(self, share):
        return self.random.random() < share

    def strange(self, words, share=0.12):
        """Whether to put in something that mj has nothing for; words: what the converter is to say of it."""
        if self.foreign and self.chance(share):
            self.told.append(words)
            return True
        return False

    def number(self, low, high):
        return round(self.random.uniform(low, high), self.random.choice((1, 3, 5)))

    def numbers(self, count, low, high):
        return " ".join(str(self.number(low, high)) for _ in range(count))

    def angle(self, low, high):
        return round(self.number(low, high) * (57.29577951308232 if self.degrees else 1), 4)

    def solref(self):
        return self.random.choice((None, None, "0.02 1", "0.015 1", "0.005 0.8", "0.001 1", "-500 -10", "0.05 1.2"))

    def solimp(self):
        return self.random.choice(
            (
                None,
                None,
                "0.9 0.99 0.003",
                "0 0.95 0.01",
                "0.8 0.8 0.01 0.5 2",
                "0.9 0.95 0.001 0.3 3",
                "0.7 0.9 0",
                "0.5 0.9 0.02 0.5 1",
            )
        )

    def contact_softness(self):
        """Mostly of a kind that mj mixes as MuJoCo does: one power, no clamped ends."""
        if self.chance(0.03):
            return self.softness()
        ref = self.random.choice((None, "0.02 1", "0.03 0.8", "0.05 1.2", "-500 -10"))
        imp = self.random.choice((None, "0.9 0.99 0.003", "0.8 0.8 0.01", "0.85 0.95 0.002 0.4 2"))
        return (f' solref="{ref}"' if ref else "") + (f' solimp="{imp}"' if imp else "")

    def softness(self, suffix=""):
        ref, imp = self.solref(), self.solimp()
        return (f' solref{suffix}="{ref}"' if ref else "") + (f' solimp{suffix}="{imp}"' if imp else "")

    def joint(self, kind):
        name = f"j{self.joint_count}"
        self.joint_count += 1
        text = f'<joint name="{name}" type="{kind}"'
        if self.chance(0.6):
            text += f' damping="{self.number(0, 1)}"'
        if self.chance(0.4):
            text += f' armature="{self.number(0.01, 0.2)}"'
        if kind in ("hinge", "slide"):
            self.joints.append(name)
            turn = self.angle if kind == "hinge" else self.number
            text += f' axis="{self.numbers(3, 0.1, 1)}" pos="{self.numbers(3, -0.2, 0.2)}"'
            ref = turn(-0.5, 0.5) if self.chance(0.3) else 0
            if ref:
                text += f' ref="{ref}"'
            if self.chance(0.5):
                low, high = turn(-0.9, -0.1), turn(0.1, 0.9)
                text += f' limited="true" range="{low} {high}" margin="{self.random.choice((0, 0.01, 0.1))}"'
                text += self.softness("limit")
            if self.chance(0.4):
                text += f' stiffness="{self.number(0.1, 20)}" springref="{turn(-0.5, 0.5)}"'
            if self.chance(0.25):
                text += f' frictionloss="{self.number(0.01, 2)}"{self.softness("friction")}'
        elif kind == "ball":
            text += f' pos="{self.numbers(3, -0.2, 0.2)}"'
            if self.strange("the spring of a ball"):
                text += ' stiffness="2"'
            if self.strange("the limit of a ball"):
                text += ' limited="true" range="0 1"'
        return text + "/>"

    def geom(self, moving):
        name = f"g{len(self.geoms)}"
        kind = self.random.choice(WHOLE)
        contact = ""
        if self.chance(0.2):
            contact = (
                f' contype="{self.random.choice((0, 1, 2, 3, 4))}" conaffinity="{self.random.choice((0, 1, 2, 3))}"'
            )
        if self.foreign and self.chance(0.08):
            kind = self.random.choice(FOREIGN_GEOMS)
        elif self.chance(0.05):
            kind, contact = self.random.choice(FOREIGN_GEOMS), ' contype="0" conaffinity="0"'
        self.geoms.append(name)
        size = {"sphere": 1, "capsule": 2, "box": 3, "cylinder": 2, "ellipsoid": 3}[kind]
        text = f'<geom name="{name}" type="{kind}" size="{self.numbers(size, 0.05, 0.2)}"'
        if kind == "capsule" and self.chance(0.5):
            ends = f"{self.numbers(3, -0.3, -0.1)} {self.numbers(3, 0.1, 0.3)}"
            text = f'<geom name="{name}" type="capsule" fromto="{ends}" size="0.06"'
        else:
            text += f' pos="{self.numbers(3, -0.2, 0.2)}" quat="1 {self.numbers(3, -1, 1)}"' if self.chance(0.5) else ""
        text += contact + (f' density="{self.number(100, 2000)}"' if moving else "")
        return text + self.answer() + "/>"

    def answer(self):
        text = ""
        if self.chance(0.3):
            text += f' condim="{self.random.choice((1, 3, 4) if self.foreign else (1, 3))}"'
        if self.chance(0.3):
            text += f' friction="{self.number(0, 2)}"'
        margin = self.random.choice((0, 0, 0.01, 0.1))
        text += f' margin="{margin}"' if margin else ""
        text += ' gap="0.005"' if margin and self.chance(0.02) else ""
        text += self.contact_softness() if self.chance(0.3) else ""
        text += ' priority="1"' if self.chance(0.01) else ""
        text += ' solmix="2"' if self.chance(0.01) else ""
        return text

    def body(self, depth):
        name = f"b{len(self.bodies)}"
        self.bodies.append(name)
        kinds = []
        if depth == 0 and self.chance(0.4):
            kinds = ["free"]
        elif not self.chance(0.25):
            kinds = self.random.choice(
                (["hinge"], ["hinge"], ["slide"], ["ball"], ["hinge", "hinge"], ["slide", "hinge"])
            )
        text = f'<body name="{name}" pos="{self.numbers(2, -0.6, 0.6)} {self.number(0, 0.6)}"'
        text += f' quat="1 {self.numbers(3, -0.5, 0.5)}">' if self.chance(0.4) else ">"
        text += "".join(map(self.joint, kinds))
        if self.chance(0.3) or not kinds:
            text += f'<inertial pos="{self.numbers(3, -0.1, 0.1)}" mass="{self.number(0.2, 3)}"'
            text += ' diaginertia="0.02 0.03 0.04"/>'
        text += "".join(self.geom(True) for _ in range(self.random.choice((1, 1, 2))))
        for _ in range(self.random.choice((0, 1, 1, 2)) if depth < 3 and len(self.bodies) < 10 else 0):
            text += self.body(depth + 1)
        return text + "</body>\n"

    def world(self):
        text = "<worldbody>\n"
        if self.chance(0.8):
            self.geoms.append("floor")
            text += f'<geom name="floor" type="plane" size="0 0 1"{self.answer()}/>\n'
        if self.chance(0.3):
            text += self.geom(False) + "\n"
        text += self.body(0)
        while self.chance(0.4):
            text += self.body(0)
        text += f'<body name="last" pos="1 0 1">{self.joint("hinge")}<geom size="0.1"/></body>\n'
        return text + "</worldbody>\n"

    def option(self):
        flags = [flag for flag in FLAGS if self.chance(0.02)]
        text = f'<option timestep="{self.random.choice((0.001, 0.002, 0.005, 0.01))}"'
        if self.chance(0.3):
            text += f' gravity="{self.numbers(3, -10, 10)}"'
        if self.chance(0.05):
            text += f' collision="{self.random.choice(("predefined", "dynamic"))}"'
        if self.strange("integrator"):
            text += ' integrator="RK4"'
        if self.strange("noslip"):
            text += ' noslip_iterations="3"'
        if self.strange("a fluid"):
            text += ' density="1.2"'
        inner = "".join(f' {flag}="disable"' for flag in flags)
        if self.chance(0.03):
            text += ' o_margin="0.01" o_solref="0.03 1"'
            inner += ' override="enable"'
        return text + f"><flag{inner}/></option>\n", flags

    def contact(self):
        text = ""
        for _ in range(self.random.choice((0, 0, 0, 1, 2))):
            if len(self.bodies) > 1:
                one, two = self.random.sample(self.bodies, 2)
                text += f'<exclude body1="{one}" body2="{two}"/>'
        if self.chance(0.1) and len(self.geoms) > 1:
            one, two = self.random.sample(self.geoms, 2)
            text += f'<pair geom1="{one}" geom2="{two}"' + (
                f' condim="3" friction="0.8 0.8"{self.contact_softness()}/>' if self.chance(0.5) else "/>"
            )
        return f"<contact>{text}</contact>\n" if text else ""

    def tendon(self):
        text = ""
        for _ in range(self.random.choice((0, 0, 1, 2))):
            name = f"t{len(self.tendons)}"
            self.tendons.append(name)
            low, high = self.number(-0.5, -0.1), self.number(0.1, 0.5)
            text += f'<fixed name="{name}"'
            if self.chance(0.4):
                text += f' limited="true" range="{low} {high}"{self.softness("limit")}'
            if self.chance(0.5):
                text += f' stiffness="{self.number(0.1, 10)}" damping="{self.number(0, 1)}"'
                text += f' springlength="{self.number(0, 0.5)}"' if self.chance(0.5) else ""
            if self.strange("frictionloss of a tendon"):
                text += ' frictionloss="0.5"'
            joints = self.random.sample(self.joints, self.random.randint(1, min(3, len(self.joints))))
            text += (
                ">"
                + "".join(f'<joint joint="{joint}" coef="{self.number(-2, 2) or 1}"/>' for joint in joints)
                + "</fixed>"
            )
        return f"<tendon>{text}</tendon>\n" if text else ""

    def actuator(self):
        text = stateful = ""
        for k in range(self.random.choice((0, 1, 2, 3))):
            target = (
                f'tendon="{self.random.choice(self.tendons)}"'
                if self.tendons and self.chance(0.3)
                else f'joint="{self.random.choice(self.joints)}"'
            )
            common = f' {target} name="a{k}"' + (f' gear="{self.number(-5, 5) or 1}"' if self.chance(0.5) else "")
            if self.chance(0.3):
                common += ' ctrllimited="true" ctrlrange="-0.7 1.1"'
            kind = self.random.choice(("motor", "motor", "position", "velocity", "general", "limited", "strong"))
            if self.strange("a muscle"):
                stateful += f'<muscle {target} name="a{k}" lengthrange="0.1 1"/>'
            elif self.strange("an activation state"):
                stateful += f'<general dyntype="integrator"{common}/>'
            elif kind == "limited":
                text += f'<motor{common} forcelimited="true" forcerange="-0.9 0.8"/>'
            elif kind == "position":
                text += f'<position{common} kp="{self.number(1, 50)}"/>'
            elif kind == "strong":
                text += (
                    f'<position joint="{self.random.choice(self.joints)}" name="a{k}" kp="{self.number(1500, 9000)}"/>'
                )
            elif kind == "velocity":
                text += f'<velocity{common} kv="{self.number(0.1, 5)}"/>'
            elif kind == "general":
                gains = f"{self.number(-1, 1)} {self.number(-20, -1)} {self.number(-3, 0)}"
                text += f'<general{common} gainprm="{self.number(1, 20)}" biastype="affine" biasprm="{gains}"/>'
            else:
                text += f"<motor{common}/>"
        return f"<actuator>{text}{stateful}</actuator>\n" if text or stateful else ""

    def equality(self):
        text = ""
        if self.chance(0.25) and len(self.joints) > 1:
            one, two = self.random.sample(self.joints, 2)
            coefs = f"{self.number(-0.2, 0.2)} {self.number(-1, 1)} 0 0 0"
            text += f'<joint joint1="{one}" joint2="{two}" polycoef="{coefs}"{self.softness()}/>'
        if self.chance(0.1):
            text += f'<joint joint1="{self.random.choice(self.joints)}" polycoef="0.1 0 0 0 0"/>'
        if self.chance(0.05):
            text += f'<joint joint1="{self.random.choice(self.joints)}" active="false"/>'
        if len(self.joints) > 1 and self.strange("polycoef"):
            text += f'<joint joint1="{self.joints[0]}" joint2="{self.joints[1]}" polycoef="0 1 0.5 0 0"/>'
        if self.strange("a connect"):
            text += '<connect body1="last" anchor="0 0 0"/>'
        if self.strange("a weld"):
            text += '<weld body1="last"/>'
        return f"<equality>{text}</equality>\n" if text else ""

    def model(self):
        """The text, and what the converter must say."""
        option, flags = self.option()
        text = f'<mujoco>\n<compiler angle="{"degree" if self.degrees else "radian"}"/>\n' + option
        text += self.world() + self.contact() + self.tendon() + self.actuator() + self.equality() + "</mujoco>\n"
        silenced = {
            "polycoef": "equality",
            "a connect": "equality",
            "a weld": "equality",
            "frictionloss of a tendon": "frictionloss",
            "the limit of a ball": "limit",
            "the spring of a ball": "passive",
        }
        told = [
            words
            for words in self.told
            if not (
                silenced.get(words) in flags or ("constraint" in flags and silenced.get(words, "passive") != "passive")
            )
        ]
        return text, told


def model(seed):
    return Maker(seed).model()
