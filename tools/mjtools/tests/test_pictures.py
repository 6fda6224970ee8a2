"""Pictures and scenes: what is seen where, and data that can be read back."""

import json
import shutil
import struct
import subprocess
from math import cos, pi, sin

import mjtools
import numpy as np
import pytest
from conftest import BALL, BALLS, INVERSE, SLIDE, SLIDE_MODEL
from mjtools.animation import Camera, animate
from mjtools.gltf import _capsule, _continuous, _from_z, write_gltf
from mjtools.plots import _figure, plot
from mjtools.quaternions import rotated
from mjtools.shapes import frames, in_world, shapes
from PIL import Image

BALL_MODEL = """[[geom]]
type = "plane"
[[body]]
name = "ball"
pos = [0, 0, "0.15"]
inertial = { mass = 1 }
[[body.joint]]
type = "free"
[[body.geom]]
size = ["0.1"]
"""

FLIGHT_MODEL = """[option]
timestep = "0.25"
[[body]]
name = "stone"
inertial = { mass = 1 }
[[body.joint]]
type = "free"
[[body.geom]]
type = "capsule"
size = ["0.5", 2]
quat = [1, 0, 1, 0]
"""


def flight(n):
    """A stone that moves 1 m a step along x and makes a quarter turn about z; every other quaternion is negated."""
    blocks = ""
    for k in range(1, n + 1):
        sign = 2**32 * (-1) ** k
        turn = f"{round(sign * cos(k * pi / 4))} 0 0 {round(sign * sin(k * pi / 4))}"
        blocks += f"step {k}\nq {k << 32} 0 0 {turn}\nv {4 << 32} 0 0 0 0 0\na 0 0 0 0 0 0\nresidual 0\nradius 0 0\n"
        blocks += "rows 0 idle 0\nstop none\ncost 0 0\n"
    return f"trace 1 nq=7 nv=6 steps={n}\n{blocks}end done\n"


def test_plots_are_pictures(kept, tmp_path):
    for name, text, model in (("slide", SLIDE, SLIDE_MODEL), ("ball", BALL, None)):
        trace = mjtools.read(kept("t.trace", text))
        plot(trace, tmp_path / f"{name}.png", mjtools.read_model(kept("m.toml", model)) if model else None)
        picture = Image.open(tmp_path / f"{name}.png")
        assert picture.format == "PNG" and picture.width > 800 and len(picture.convert("L").getcolors()) > 10
    plot(trace, tmp_path / "ball.svg")
    assert "<svg" in (tmp_path / "ball.svg").read_text()


def axes_of(kept, text):
    """The panels of a trace's picture."""
    return _figure(mjtools.read(kept("t.trace", text)), None).axes


def test_plots_of_balls_have_a_panel_more(kept, tmp_path):
    plot(mjtools.read(kept("t.trace", BALLS)), tmp_path / "balls.png")
    assert Image.open(tmp_path / "balls.png").format == "PNG"
    assert len(axes_of(kept, SLIDE)) == 3
    *_, last = panels = axes_of(kept, BALLS)
    (line,) = last.get_lines()
    assert len(panels) == 4 and line.get_label() == "radius of the ball, 0 in 1 steps, none in 1"
    values = line.get_ydata()
    assert np.isnan(values[:2]).all() and values[2] == 2.0
    exact = BALLS.replace("ball none", "ball 39 549755813888 0").replace(" 8589934592\nend", " 0\nend")
    assert axes_of(kept, exact)[-1].get_lines()[0].get_label() == "radius of the ball, 0 in 3 steps"


def test_plots_of_separated_forces(kept):
    panels = axes_of(kept, INVERSE)
    assert len(panels) == 6
    assert [line.get_label() for line in panels[-1].get_lines()] == ["gap", "discrepancy"]
    assert [line.get_ydata().tolist() for line in panels[-1].get_lines()] == [[1.0], [1.0]]
    dotted = [line.get_ydata().tolist() for line in panels[2].get_lines() if line.get_linestyle() == ":"]
    assert dotted == [[5.0], [2.0]], "the separated forces of the equality and of the friction"


def test_plots_of_no_steps(kept, tmp_path):
    plot(mjtools.read(kept("t.trace", "trace 1 nq=1 nv=1 steps=0\nend done\n")), tmp_path / "none.png")
    assert Image.open(tmp_path / "none.png").format == "PNG"


def test_a_camera_sees_up_as_up():
    level = Camera(0, 0)
    assert level.seen(np.array([0, 0, 3.0])) == pytest.approx([0, 3, 0])
    assert level.seen(np.array([2.0, 0, 0])) == pytest.approx([0, 0, 2]), "x comes towards it"
    assert level.seen(np.array([0, 1.0, 0])) == pytest.approx([1, 0, 0])
    assert Camera(0, 90).seen(np.array([0, 0, 3.0])) == pytest.approx([0, 0, 3]), "from above z comes towards it"


def test_a_strip_shows_a_stone_that_moves_to_the_right(kept, tmp_path):
    model, trace = mjtools.read_model(kept("m.toml", FLIGHT_MODEL)), mjtools.read(kept("t.trace", flight(9)))
    animate(trace, model, tmp_path / "strip.png", count=3, height=120, camera=Camera(-90, 0))
    strip = np.asarray(Image.open(tmp_path / "strip.png").convert("RGB")).astype(int)
    width = strip.shape[1] // 3
    middles = []
    for k in range(3):
        frame = strip[20:, k * width : (k + 1) * width]
        stone = (frame[:, :, 0] - frame[:, :, 2]) > 40
        assert stone.any()
        middles.append(np.flatnonzero(stone.any(axis=0)).mean())
    assert middles[0] < middles[1] < middles[2]
    assert middles[1] - middles[0] == pytest.approx(middles[2] - middles[1], abs=2)


def test_a_gif_has_its_frames(kept, tmp_path):
    model, trace = mjtools.read_model(kept("m.toml", FLIGHT_MODEL)), mjtools.read(kept("t.trace", flight(9)))
    animate(trace, model, tmp_path / "a.gif", rate=4, height=60)
    picture = Image.open(tmp_path / "a.gif")
    assert picture.format == "GIF" and picture.n_frames == 9 and picture.info["duration"] == 250
    animate(trace, model, tmp_path / "fast.gif", rate=2, speed=2, height=60)
    assert (
        Image.open(tmp_path / "fast.gif").n_frames == 3 and Image.open(tmp_path / "fast.gif").info["duration"] == 500
    )
    animate(trace, model, tmp_path / "slow.gif", rate=2, speed=0.5, height=60)
    assert (
        Image.open(tmp_path / "slow.gif").n_frames == 9 and Image.open(tmp_path / "slow.gif").info["duration"] == 500
    )


def test_frames_are_evenly_apart(kept):
    model, trace = mjtools.read_model(kept("m.toml", FLIGHT_MODEL)), mjtools.read(kept("t.trace", flight(9)))
    assert frames(trace, model, 1, 100).tolist() == [0, 4, 8]
    assert frames(trace, model, 100, 3).tolist() == [0, 3, 6]


def test_bodies_without_geoms_are_rods(kept):
    model = mjtools.read_model(
        kept(
            "m.toml",
            """[[body]]
name = "a"
inertial = { mass = 1, pos = ["0.5", 0, 0] }
[[body.joint]]
[[body]]
name = "b"
parent = "a"
pos = [1, 0, 0]
inertial = { mass = 1 }
""",
        )
    )
    found = shapes(model)
    assert [(shape.body, shape.end.tolist()) for shape in found] == [(1, [0.5, 0, 0]), (2, [0, 0, 0]), (1, [1, 0, 0])]
    starts, ends = in_world(model, found, np.array([[np.pi / 2]]))
    assert ends[0, 2] == pytest.approx([0, 1, 0]) and starts[0, 1] == pytest.approx([0, 1, 0])


def parsed(path):
    """The document and the data of a .glb, with the lengths that its heads tell."""
    data = path.read_bytes()
    magic, version, length = struct.unpack_from("<4sII", data)
    assert (magic, version, length) == (b"glTF", 2, len(data))
    size, kind = struct.unpack_from("<I4s", data, 12)
    assert kind == b"JSON" and size % 4 == 0
    rest, kind = struct.unpack_from("<I4s", data, 20 + size)
    assert kind == b"BIN\0" and 28 + size + rest == len(data)
    return json.loads(data[20 : 20 + size]), data[28 + size :]


def values(document, data, number):
    accessor = document["accessors"][number]
    view = document["bufferViews"][accessor["bufferView"]]
    width = {"SCALAR": 1, "VEC3": 3, "VEC4": 4}[accessor["type"]]
    kind = {5126: "<f4", 5123: "<u2"}[accessor["componentType"]]
    found = np.frombuffer(data, kind, accessor["count"] * width, view["byteOffset"]).reshape(-1, width)
    assert view["byteLength"] == found.nbytes and view["byteOffset"] % 4 == 0
    if "min" in accessor:
        assert accessor["min"] == found.min(axis=0).tolist() and accessor["max"] == found.max(axis=0).tolist()
    return found


def test_a_scene_has_its_poses(kept, tmp_path):
    model, trace = mjtools.read_model(kept("m.toml", FLIGHT_MODEL)), mjtools.read(kept("t.trace", flight(9)))
    write_gltf(trace, model, tmp_path / "s.glb", rate=100)
    document, data = parsed(tmp_path / "s.glb")
    moves, turns = document["animations"][0]["channels"]
    samplers = document["animations"][0]["samplers"]
    assert document["nodes"][moves["target"]["node"]]["name"] == "stone"
    assert values(document, data, samplers[0]["input"])[:, 0].tolist() == [k / 4 for k in range(1, 10)]
    assert values(document, data, samplers[0]["output"]).tolist() == [[k, 0, 0] for k in range(1, 10)]
    rotations = values(document, data, samplers[turns["sampler"]]["output"])
    assert np.linalg.norm(rotations, axis=1) == pytest.approx(np.ones(9), abs=1e-6)
    assert (np.sum(rotations[1:] * rotations[:-1], axis=1) > 0).all()
    found = mjtools.body_poses(model, trace.q).quaternion[:, 0]
    assert np.abs(np.sum(found * np.roll(rotations, 1, axis=1), axis=1)) == pytest.approx(np.ones(9), abs=1e-6)
    assert document["asset"]["version"] == "2.0" and document["nodes"][0]["name"] == "world"


def test_every_mesh_is_closed_and_faces_outwards():
    for radius, half in ((0.1, 0.3), (0.2, 0.0)):
        points, normals, triangles = _capsule(radius, half)
        assert np.linalg.norm(normals, axis=1) == pytest.approx(np.ones(len(normals)))
        reach = np.abs(points[:, 2]).max()
        assert reach == pytest.approx(radius + half)
        corners = points[triangles.reshape(-1, 3)]
        across = np.cross(corners[:, 1] - corners[:, 0], corners[:, 2] - corners[:, 0])
        assert (np.linalg.norm(across, axis=1) > 0).all()
        assert (np.sum(across * corners.mean(axis=1), axis=1) > 0).all()
        edges = np.round(points, 9)[triangles.reshape(-1, 3)[:, [0, 1, 1, 2, 2, 0]].reshape(-1, 2)]
        count = {}
        for a, b in edges.tolist():
            key = tuple(sorted((tuple(x + 0.0 for x in a), tuple(x + 0.0 for x in b))))
            count[key] = count.get(key, 0) + 1
        assert set(count.values()) == {2}


def test_turns_from_z():
    for direction in ([0, 0, 1], [0, 0, -1], [1, 0, 0], [0, 0.6, -0.8]):
        assert rotated(_from_z(np.array(direction, float)), [0, 0, 1]) == pytest.approx(direction, abs=1e-12)


def test_turns_are_continuous():
    turns = np.array([[1, 0, 0, 0], [-1, 0, 0, 0], [-0.8, -0.6, 0, 0], [0.6, 0.8, 0, 0]])
    assert _continuous(turns).tolist() == [[1, 0, 0, 0], [1, 0, 0, 0], [0.8, 0.6, 0, 0], [0.6, 0.8, 0, 0]]


def test_a_scene_as_text(kept, tmp_path):
    model, trace = mjtools.read_model(kept("m.toml", BALL_MODEL)), mjtools.read(kept("t.trace", BALL))
    write_gltf(trace, model, tmp_path / "s.gltf")
    document = json.loads((tmp_path / "s.gltf").read_text())
    assert document["buffers"][0]["uri"].startswith("data:application/octet-stream;base64,")
    assert [node["name"] for node in document["nodes"]] == ["world", "ball", "geom2", "plane1"]
    assert document["nodes"][1]["translation"] == (trace.q[0, :3]).tolist()


def test_another_reader_takes_the_scene(kept, tmp_path):
    if not shutil.which("assimp"):
        pytest.skip("assimp isn't installed (assimp-utils)")
    model, trace = mjtools.read_model(kept("m.toml", FLIGHT_MODEL)), mjtools.read(kept("t.trace", flight(9)))
    write_gltf(trace, model, tmp_path / "s.glb")
    done = subprocess.run(["assimp", "info", tmp_path / "s.glb"], capture_output=True, text=True, check=False)
    assert done.returncode == 0
    words = " ".join(done.stdout.split())
    assert "Animations: 1" in words and "Meshes: 1" in words and "stone" in words
