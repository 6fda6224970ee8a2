"""Moving pictures of a run: a GIF, or a strip of frames as one PNG."""

from dataclasses import dataclass
from math import cos, radians, sin

import numpy as np
from PIL import Image, ImageDraw, ImageFont

from .contacts import state_contacts
from .errors import Unusable
from .quaternions import rotated
from .shapes import frames, in_world, planes, shapes
from .writing import whole_file

COLOURS = ["#4f81bd", "#d98c5f", "#6aa684", "#9a7fb5", "#c9a94b", "#5fa8b5"]
GROUND, GRID, SHADOW, EDGE, PAPER, TOUCH = "#eef0f2", "#d5d9de", "#c3c8ce", "#2f3640", "#ffffff", "#d7263d"
MOST_FRAMES = 400
SMOOTH = 2
"""Frames are drawn this many times larger and then made smaller, so that edges are smooth."""


@dataclass(frozen=True)
class Camera:
    """Looks at the world without perspective, from `azimuth` about z and `elevation` above level, in degrees."""

    azimuth: float = -60.0
    elevation: float = 15.0

    def seen(self, points):
        """Points (.., 3) as right, up and towards the camera (.., 3), in m."""
        a, e = radians(self.azimuth), radians(self.elevation)
        towards = np.array([cos(e) * cos(a), cos(e) * sin(a), sin(e)])
        right = np.array([-sin(a), cos(a), 0])
        return np.stack([points @ right, points @ np.cross(towards, right), points @ towards], axis=-1)


@dataclass(frozen=True)
class _Sheet:
    """How metres become pixels: the seen point `middle` is in the middle of the sheet of `size`."""

    size: tuple
    scale: float
    middle: np.ndarray

    def at(self, seen):
        """Pixels (.., 2), right and down, of seen points (.., 3)."""
        across = self.size[0] / 2 + (seen[..., 0] - self.middle[0]) * self.scale
        down = self.size[1] / 2 - (seen[..., 1] - self.middle[1]) * self.scale
        return np.stack([across, down], axis=-1)


def animate(trace, model, path, rate=25.0, speed=1.0, count=6, height=360, camera=Camera()):
    """Draws a Trace with its Model into a GIF, or into a PNG with `count` frames side by side, by the name's end.

    `rate` is frames a second of the GIF, `speed` how fast it runs, `height` that of a frame in pixels.
    """
    if not len(trace):
        raise Unusable(f"{trace.path}: no step was done, so there is nothing to see")
    kind = str(path).rpartition(".")[2].lower()
    if kind not in ("gif", "png"):
        raise Unusable(f"{path}: a moving picture is a .gif, a strip of frames a .png")
    if kind == "gif":
        places = frames(trace, model, rate / speed, MOST_FRAMES)
    else:
        places = np.unique(np.linspace(0, len(trace) - 1, count).round().astype(int))
    pictures = list(_frames(trace, model, places, height, camera))
    with whole_file(path) as file:
        if kind == "png":
            _side_by_side(pictures).save(file, "PNG", optimize=True)
        else:
            apart = (places[1] - places[0] if len(places) > 1 else 1) * model.timestep
            _save_gif(pictures, file, max(20, round(1000 * apart / speed)))


def _frames(trace, model, places, height, camera):
    """Yields a picture for each of these places."""
    found = shapes(model)
    world = in_world(model, found, trace.q[places])
    starts, ends = camera.seen(world[0]), camera.seen(world[1])
    radii = np.array([shape.radius for shape in found])
    sheet = _sheet(np.concatenate([starts, ends], axis=1), np.tile(radii, 2), height * SMOOTH)
    touching = state_contacts(model, trace.q[places])
    for number, place in enumerate(places):
        picture = Image.new("RGB", sheet.size, PAPER)
        draw = ImageDraw.Draw(picture)
        for plane in planes(model):
            _draw_plane(draw, sheet, camera, plane)
            _draw_shadows(draw, sheet, camera, plane, world[0][number], world[1][number], radii)
        _draw_shapes(draw, sheet, found, starts[number], ends[number])
        for point in sheet.at(camera.seen(touching["point"][touching["step"] == number + 1])):
            draw.ellipse([*(point - 2 * SMOOTH), *(point + 2 * SMOOTH)], fill=TOUCH)
        picture = picture.resize((sheet.size[0] // SMOOTH, height), Image.Resampling.BOX)
        label = f"{(place + 1) * model.timestep:.3f} s"
        ImageDraw.Draw(picture).text((6, 4), label, fill=EDGE, font=ImageFont.load_default())
        yield picture


def _sheet(seen, radii, height):
    """A sheet on which all points with their radii have room, wide enough for its height."""
    least = (seen[..., :2] - radii[:, None]).min(axis=(0, 1))
    most = (seen[..., :2] + radii[:, None]).max(axis=(0, 1))
    span = np.maximum(most - least, 1e-3)
    ratio = min(max(span[0] / span[1], 0.5), 2.0)
    width = round(height * ratio / SMOOTH) * SMOOTH
    scale = 0.84 * min(width / span[0], height / span[1])
    return _Sheet((width, height), scale, (least + most) / 2)


def _draw_plane(draw, sheet, camera, plane):
    """A square of the plane with a grid, as large as the sheet shows even where it is seen flat."""
    wide = max(sheet.size) / sheet.scale
    cell = 10.0 ** np.floor(np.log10(wide))
    half = np.ceil(wide / cell / max(abs(sin(radians(camera.elevation))), 0.1))
    lines = np.arange(-half, half + 1) * cell
    near = np.round(_foot(camera, sheet, plane) / cell) * cell
    corners = near + np.array([[-1, -1], [1, -1], [1, 1], [-1, 1]]) * lines[-1]
    draw.polygon(_points(sheet, camera, plane, corners), fill=GROUND)
    for line in lines:
        for ends in ([[line, lines[0]], [line, lines[-1]]], [[lines[0], line], [lines[-1], line]]):
            draw.line(_points(sheet, camera, plane, near + np.array(ends)), fill=GRID, width=SMOOTH)


def _foot(camera, sheet, plane):
    """Where the ray through the sheet's middle meets a plane, in the plane's x and y; its origin where it doesn't."""
    x, y, normal = (rotated(plane.quat, axis) for axis in np.eye(3))
    basis = np.array([camera.seen(axis) for axis in np.eye(3)])
    middle = basis @ np.array([*sheet.middle, 0])
    towards = basis @ np.array([0, 0, 1.0])
    if abs(towards @ normal) < 1e-6:
        return np.zeros(2)
    foot = middle + towards * ((plane.pos - middle) @ normal) / (towards @ normal) - plane.pos
    return np.array([foot @ x, foot @ y])


def _points(sheet, camera, plane, flat):
    """Points on the plane, given in its own x and y, as pixels."""
    world = plane.pos + rotated(plane.quat, np.column_stack([flat, np.zeros(len(flat))]))
    return [tuple(point) for point in sheet.at(camera.seen(world))]


def _draw_shadows(draw, sheet, camera, plane, starts, ends, radii):
    """What each shape covers of the plane, seen along its normal."""
    x, y, normal = (rotated(plane.quat, axis) for axis in np.eye(3))
    turn = np.linspace(0, 2 * np.pi, 24, endpoint=False)
    for start, end, radius in zip(starts, ends, radii, strict=True):
        if min(start @ normal, end @ normal) + radius < plane.pos @ normal:
            continue
        feet = [np.array([(point - plane.pos) @ x, (point - plane.pos) @ y]) for point in (start, end)]
        circle = radius * np.column_stack([np.cos(turn), np.sin(turn)])
        along = feet[1] - feet[0]
        across = radius * np.array([-along[1], along[0]]) / max(np.linalg.norm(along), 1e-9)
        outlines = [feet[0] + circle, feet[1] + circle]
        outlines.append(np.array([feet[0] - across, feet[1] - across, feet[1] + across, feet[0] + across]))
        for outline in outlines:
            draw.polygon(_points(sheet, camera, plane, outline), fill=SHADOW)


def _draw_shapes(draw, sheet, found, starts, ends):
    """Capsules, the farthest first, each with an edge."""
    for place in np.argsort(starts[:, 2] + ends[:, 2], kind="stable"):
        shape = found[place]
        points = sheet.at(np.array([starts[place], ends[place]]))
        colour = COLOURS[shape.body % len(COLOURS)]
        width = shape.radius * sheet.scale
        _draw_capsule(draw, points, width + SMOOTH, EDGE)
        _draw_capsule(draw, points, width, colour)


def _draw_capsule(draw, points, radius, colour):
    along = points[1] - points[0]
    length = np.hypot(*along)
    if length > 0:
        across = radius * np.array([-along[1], along[0]]) / length
        outline = [points[0] + across, points[1] + across, points[1] - across, points[0] - across]
        draw.polygon([tuple(point) for point in outline], fill=colour)
    for point in points:
        draw.ellipse([*(point - radius), *(point + radius)], fill=colour)


def _side_by_side(pictures):
    strip = Image.new("RGB", (sum(picture.width for picture in pictures), pictures[0].height), PAPER)
    across = 0
    for picture in pictures:
        strip.paste(picture, (across, 0))
        across += picture.width
    return strip.quantize(128, dither=Image.Dither.NONE)


def _save_gif(pictures, file, milliseconds):
    first, *rest = [picture.quantize(64, dither=Image.Dither.NONE) for picture in pictures]
    first.save(file, "GIF", save_all=True, append_images=rest, duration=milliseconds, loop=0, optimize=False)
