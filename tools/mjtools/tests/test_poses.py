"""Poses, by kinematics worked by hand."""

from math import cos, pi, sin

import mjtools
import numpy as np
import pytest
from conftest import TOP
from mjtools.quaternions import about, product, rotated

HALF = 2**-0.5


def test_a_quarter_turn_about_y_takes_x_down():
    turn = about([0, 1, 0], np.array([pi / 2]))[0]
    assert rotated(turn, [1, 0, 0]) == pytest.approx([0, 0, -1])
    assert rotated(turn, [0, 0, 1]) == pytest.approx([1, 0, 0])


def test_the_right_factor_turns_first():
    z, x = about([0, 0, 1], np.array(pi / 2)), about([1, 0, 0], np.array(pi / 2))
    assert rotated(product(z, x), [0, 1, 0]) == pytest.approx([0, 0, 1])
    assert rotated(product(x, z), [0, 1, 0]) == pytest.approx([-1, 0, 0])


def test_a_double_pendulum():
    model = mjtools.read_model(TOP / "examples" / "pendulum.toml")
    q = np.array([[0, 0], [pi / 2, 0], [pi / 2, -pi / 2], [pi / 6, pi / 3]])
    found = mjtools.body_poses(model, q)
    assert found.position[:, 0] == pytest.approx(np.array([[0, 0, 2]] * 4))
    elbows = [[1, 0, 2], [0, 0, 1], [0, 0, 1], [cos(pi / 6), 0, 2 - sin(pi / 6)]]
    assert found.position[:, 1] == pytest.approx(np.array(elbows))
    assert found.quaternion[2, 1] == pytest.approx([1, 0, 0, 0])
    assert found.quaternion[3, 1] == pytest.approx([cos(pi / 4), 0, sin(pi / 4), 0])


def model_of(kept, body):
    return mjtools.read_model(kept("m.toml", f'[[body]]\nname = "a"\n{body}'))


def test_a_hinge_turns_about_its_anchor(kept):
    model = model_of(kept, "pos = [1, 2, 3]\n[[body.joint]]\npos = [1, 0, 0]\naxis = [0, 0, 5]\n")
    found = mjtools.body_poses(model, np.array([pi]))
    assert found.position[0, 0] == pytest.approx([3, 2, 3])
    assert found.quaternion[0, 0] == pytest.approx([0, 0, 0, 1], abs=1e-12)


def test_a_slide_moves_along_its_bodys_axis(kept):
    model = model_of(kept, 'quat = [1, 0, 0, 1]\n[[body.joint]]\ntype = "slide"\naxis = [3, 4, 0]\n')
    found = mjtools.body_poses(model, np.array([10.0]))
    assert found.position[0, 0] == pytest.approx([-8, 6, 0])


def test_a_ball_turns_by_its_quaternion(kept):
    model = model_of(kept, '[[body.joint]]\ntype = "ball"\npos = [0, 1, 0]\n')
    found = mjtools.body_poses(model, np.array([HALF, HALF, 0, 0]))
    assert found.position[0, 0] == pytest.approx([0, 1, -1])


def test_a_free_joint_is_the_pose(kept):
    model = model_of(kept, 'pos = [9, 9, 9]\n[[body.joint]]\ntype = "free"\n')
    found = mjtools.body_poses(model, np.array([1, 2, 3, 0, 0, 2, 0.0]))
    assert found.position[0, 0].tolist() == [1, 2, 3] and found.quaternion[0, 0].tolist() == [0, 0, 1, 0]


def test_joints_of_a_body_act_in_their_order(kept):
    both = '[[body.joint]]\ntype = "slide"\naxis = [1, 0, 0]\n[[body.joint]]\naxis = [0, 0, 1]\n'
    found = mjtools.body_poses(model_of(kept, both), np.array([2, pi / 2]))
    assert found.position[0, 0] == pytest.approx([2, 0, 0])
    first_turn = '[[body.joint]]\naxis = [0, 0, 1]\n[[body.joint]]\ntype = "slide"\naxis = [1, 0, 0]\n'
    found = mjtools.body_poses(model_of(kept, first_turn), np.array([pi / 2, 2]))
    assert found.position[0, 0] == pytest.approx([0, 2, 0])


def test_geoms_ride_on_their_bodies(kept):
    text = (
        '[[geom]]\ntype = "plane"\n[[body]]\nname = "a"\n[[body.joint]]\naxis = [0, 0, 1]\n'
        '[[body.geom]]\ntype = "capsule"\nsize = ["0.1", "0.2"]\npos = [1, 0, 0]\nquat = [1, 0, 1, 0]\n'
    )
    model = mjtools.read_model(kept("m.toml", text))
    geoms = mjtools.geom_poses(model, mjtools.body_poses(model, np.array([pi / 2])))
    assert geoms.position[0].tolist()[0] == [0, 0, 0]
    assert geoms.position[0, 1] == pytest.approx([0, 1, 0])
    axis = rotated(geoms.quaternion[0, 1], [0, 0, 1])
    assert axis == pytest.approx([0, 1, 0]), "a capsule with quat 1 0 1 0 lies along x, here turned to y"
    assert (model.geoms[1].radius, model.geoms[1].half) == (pytest.approx(0.1), pytest.approx(0.2))


def test_positions_of_another_number(kept):
    with pytest.raises(ValueError, match="3 positions"):
        mjtools.body_poses(model_of(kept, "[[body.joint]]\n"), np.zeros((5, 3)))
