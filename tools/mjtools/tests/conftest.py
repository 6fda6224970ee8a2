"""What the tests share: small traces written by hand, and the program where it is built."""

import os
from pathlib import Path

import pytest

os.environ.pop("MJ", None)

TOP = Path(__file__).resolve().parents[3]

SLIDE = """trace 1 nq=1 nv=1 steps=3
step 1
q -2147483648
v -8589934592
a -34359738368
residual 0
radius 0 0
rows 0 idle 0
stop none
cost 0 0
step 2
q -6442450944
v -17179869184
a -34359738368
residual 0
radius 0 0
rows 0 idle 0
stop none
cost 0 0
step 3
q -12884901888
v -25769803776
a -34359738368
residual 0
radius 0 0
rows 0 idle 0
stop none
cost 0 0
end done
"""
"""A body that falls with 8 m/s^2 in steps of 0.25 s: v is -2, -4, -6 m/s and q -0.5, -1.5, -3 m."""

SLIDE_MODEL = """[option]
timestep = "0.25"
gravity = [0, 0, -8]
[[body]]
name = "a"
inertial = { mass = 1 }
[[body.joint]]
name = "z"
type = "slide"
"""

BALL = """trace 1 nq=7 nv=6 steps=1
step 1
q 947 947 427784776 4294967296 7503 -6636 0
v 287 320 67 7901 -7082 0
a 0 0 -2294 0 0 0
residual 0
radius 2 2
rows 4 idle 0
row 1 contact 1 1 2571753 2571211 2571805
row 2 contact 1 2 2571753 2571349 2571943
row 3 contact 1 3 2571512 2571341 2571936
row 4 contact 1 4 2571512 2571218 2571812
stop tolerance 53
cost -32853822443848167755936561746 -32853822454067129288963096528
end done
"""
"""A ball of 1 kg at rest on a plane: four edges carry 9.81 N; cost -106.15642567895 N m/s^2, a gap of 3.3e-8."""

LIMIT = """trace 1 nq=1 nv=1 steps=1
step 1
q -3087007744
v -3758096384
a -15032385536
residual 0
radius 0 0
rows 1 idle 0
row 1 low 1 4718592 4718592 4718592
stop tolerance 2
cost -12534142897764475283353632768 -12534142897764475283353632768
dual 1 1
d 1 281474976710656 -38654705664 16777216
end done
"""
"""A limit that pushes back with 4.5 N, with its dual: A = R = 1, b = -9."""

FRICTION = """trace 2 nq=1 nv=1 steps=1
step 1
q -1610612736
v -6442450944
a -25769803776
residual 0
radius 0 0
rows 2 idle 0
row 1 equality 1 4194304 4194304 4194304 in - -
row 2 friction 1 2097152 2097152 2097152 in -2097152 2097152
stop tolerance 2
cost -7427640235712281649394745344 -7427640235712281649394745344
dual 2 1 bounds
d 1 281474976710656 -34359738368 - - 16777216
d 2 281474976710656 -34359738368 -2097152 2097152 16777216
end done
"""
"""Format 2: an equality, free to push either way with 4 N, and a friction of at most 2 N."""

BALLS = SLIDE.replace("step 2", "ball 39 549755813888 0\nstep 2").replace("step 3", "ball none\nstep 3").replace(
    "end done", "ball 37 137438953366 8589934592\nend done"
)
"""Balls of radius 0, none, and 2 m/s^2; the least eigenvalue is at least 0.5 kg, and about 0.125 kg."""

INVERSE = "".join(line for line in FRICTION.splitlines(True) if line[0] != "d").replace(
    "end done", "inverse 1048576 4722366482869645213696\nx 1 5242880\nx 2 2097152\nend done"
)
"""The separated force of the equality is 5 N, 1 N off; then the equation of motion is 1 N off."""

EARLY = SLIDE.replace("end done", "end out-of-range step=4 kind=Position index=1").replace("steps=3", "steps=20")


@pytest.fixture
def kept(tmp_path):
    """Writes a text to a file of this name in a folder of the test's own: its path."""

    def keep(name, text):
        path = tmp_path / name
        path.write_bytes(text if isinstance(text, bytes) else text.encode())
        return path

    return keep


@pytest.fixture
def mj():
    """The built program; without it the test is skipped."""
    path = TOP / "crates" / "mj" / "out" / "mj"
    if not path.is_file():
        pytest.skip("crates/mj/out/mj isn't built")
    return str(path)
