"""Pictures of frames and of runs, by matplotlib. A picture of the same input by the same version has the same bytes."""

import math
import os

import matplotlib

matplotlib.use("Agg")
import matplotlib.animation
import matplotlib.pyplot as plot
import numpy
import PIL.Image
from matplotlib.collections import LineCollection
from matplotlib.lines import Line2D
from matplotlib.patches import Rectangle
from matplotlib.ticker import LogLocator, MaxNLocator, NullLocator

from nbody_tools.command import Failure, Refusal, writing
from nbody_tools.scenes import SIDE, cube_of

matplotlib.rcParams.update({"svg.hashsalt": "nbody", "font.size": 10, "axes.titlesize": 10, "figure.dpi": 100,
                            "axes.spines.top": False, "axes.spines.right": False})

# Paul Tol's muted colours, which people with any kind of colour blindness tell apart, dark and light ones in turns. Shapes
# part them once more: no two of 64 zones have both alike.
COLOURS = ("#332288", "#DDCC77", "#117733", "#CC6677", "#88CCEE", "#882255", "#999933", "#44AA99")
SHAPES = "o^sDvP*X"
# What a shape's size is multiplied by to look as large as the others.
SIZES = {"o": 1.0, "^": 1.5, "s": 0.8, "D": 0.75, "v": 1.5, "P": 1.2, "*": 2.2, "X": 1.2}
INK = "#444444"
PLANES = {"xy": (0, 1), "xz": (0, 2), "yz": (1, 2)}


def look_of(number):
    """The colour and the shape of a zone."""
    return COLOURS[number % 8], SHAPES[(number + number // 8) % 8]


def save(figure, name):
    """Writes a figure to a file, whole or not at all. A PNG has a palette of 256 colours, which makes it small."""
    with writing(name) as part:
        if name.lower().endswith(".png"):
            figure.canvas.draw()
            picture = PIL.Image.fromarray(numpy.asarray(figure.canvas.buffer_rgba())).convert("RGB")
            # Without dithering: the colours are few and even.
            picture.quantize(256, dither=0).save(part, optimize=True)
        else:
            figure.savefig(part, metadata={"Date": None})
    plot.close(figure)


def kind_of(name, kinds):
    """Refuses a name of a picture whose ending tells none of these kinds."""
    if os.path.splitext(name)[1].lower() not in kinds:
        raise Refusal("--out %s: the name has to end with %s" % (name, " or ".join(kinds)))


class View:
    """A square window onto a plane of the grid."""

    def __init__(self, plane, points, zoom):
        self.plane, self.axes, self.width = plane, PLANES[plane], SIDE / zoom
        self.low = [0.0, 0.0]
        if zoom > 1 and len(points):
            # The window's middle is that of the bodies, as far as the window stays within the cube.
            middle = numpy.median(numpy.asarray(points, float)[:, self.axes], axis=0)
            self.low = [min(max(it - self.width / 2, 0), SIDE - self.width) for it in middle]

    def projected(self, points):
        return numpy.asarray(points, float).reshape(-1, 3)[:, self.axes]

    def apply(self, axes):
        margin = self.width / 100
        axes.set_xlim(self.low[0] - margin, self.low[0] + self.width + margin)
        axes.set_ylim(self.low[1] - margin, self.low[1] + self.width + margin)
        unit, told = (1000, "thousand grid steps") if self.width > 10000 else (1, "grid steps")
        for axis, letter in ((axes.xaxis, self.plane[0]), (axes.yaxis, self.plane[1])):
            axis.set_major_locator(MaxNLocator(5))
            axis.set_major_formatter(lambda value, _: "%g" % (value / unit))
            axis.set_label_text("%s, %s" % (letter, told))
        axes.label_outer()


def cut_by(key, axis, at):
    """Whether a plane cuts the cube of a key: the coordinate of its points along the axis is given."""
    corner, side = cube_of(key)
    return corner[axis] <= at < corner[axis] + side


def squares(keys, view):
    """The projected squares of cubes, each once: low corner and side."""
    found = set()
    for key in keys:
        corner, side = cube_of(key)
        found.add((side, corner[view.axes[0]], corner[view.axes[1]]))
    return sorted(found, reverse=True)


def draw_cells(axes, cells, view):
    """The octree: the whole cube, and in each cell the two lines that divide its square."""
    lines, widths = [], []
    for side, x, y in [*squares(cells, view)]:
        half = side / 2
        lines += [((x + half, y), (x + half, y + side)), ((x, y + half), (x + side, y + half))]
        widths += [min(max(0.45, 1.2 - 0.3 * math.log2(view.width / side)), 1.5)] * 2
    axes.add_collection(LineCollection(lines, linewidths=widths, colors="#a0a0a0", zorder=1))
    draw_cube(axes)


def draw_cube(axes):
    axes.add_collection(LineCollection([[(0, 0), (SIDE, 0), (SIDE, SIDE), (0, SIDE), (0, 0)]], linewidths=1, colors=INK, zorder=1))


def draw_pieces(axes, pieces, view):
    """SPACE's pieces that a plane cuts: the square of each in its worker's colour."""
    for key, _, worker in sorted(pieces):
        corner, side = cube_of(key)
        x, y = (corner[it] for it in view.axes)
        axes.add_patch(Rectangle((x, y), side, side, facecolor=look_of(worker)[0] + "55", edgecolor=INK, linewidth=0.6, zorder=1))
    draw_cube(axes)


def draw_bodies(axes, points, zones, view, smaller=1):
    """The bodies, each zone in its colour and shape; without zones all in one."""
    at = view.projected(points)
    shown = numpy.all((at >= view.low) & (at <= numpy.add(view.low, view.width)), axis=1).sum() if len(at) else 0
    size = min(max(20000 / max(shown, 1), 6), 25) / smaller
    for number, bodies in enumerate(zones or [list(range(len(points)))]):
        colour, shape = look_of(number) if zones else (COLOURS[0], "o")
        some = at[bodies] if bodies else at[:0]
        axes.scatter(some[:, 0], some[:, 1], s=size * SIZES[shape], c=colour, marker=shape, linewidths=0.25,
                     edgecolors=INK, zorder=2)


def draw_arrows(axes, points, pulls, view):
    """Accelerations: an arrow's length goes as the square root, up to an eighth of the window, which one of ten may reach."""
    at, along = view.projected(points), view.projected([tuple(float(it) for it in pull) for pull in pulls])
    size = numpy.sqrt(numpy.hypot(along[:, 0], along[:, 1]))
    usual = numpy.percentile(size[size > 0], 90) if size.any() else 1
    length = numpy.minimum(size / usual, 1) * view.width / 8
    arrows = along / numpy.where(size > 0, size * size, 1)[:, None] * length[:, None]
    axes.quiver(at[:, 0], at[:, 1], arrows[:, 0], arrows[:, 1], angles="xy", scale_units="xy", scale=1, width=0.003,
                headwidth=4.5, headlength=6, color=COLOURS[5], zorder=3)


def draw_legend(figure, count, title):
    """The zones' colours, right of the picture."""
    marks = [Line2D([], [], linestyle="", marker=look_of(it)[1], color=look_of(it)[0], markersize=7, label=str(it)) for it in range(count)]
    figure.legend(handles=marks, title=title, loc="center right", ncol=legend_columns(count), frameon=False, fontsize=10,
                  handletextpad=0.1, columnspacing=0.5, borderaxespad=0.2)


def legend_columns(count):
    return math.ceil(count / 22)


def figure_of(panels, marks, width):
    """A figure of so many square panels, with room for a legend of so many marks at its right. Lengths are in inches."""
    columns = math.ceil(math.sqrt(panels))
    rows = math.ceil(panels / columns)
    whole, left, right, below, above, gap = width / 100, 0.75, 0.15 + 0.6 * legend_columns(marks), 0.5, 0.3, 0.35
    side = (whole - left - right - gap * (columns - 1)) / columns
    height = side * rows + below + above + gap * (rows - 1)
    figure, axes = plot.subplots(rows, columns, figsize=(whole, height), squeeze=False, sharex=True, sharey=True)
    figure.subplots_adjust(left / whole, below / height, 1 - right / whole, 1 - above / height, gap / side, gap / side)
    for it in axes.flat[panels:]:
        it.set_visible(False)
    return figure, list(axes.flat[:panels])


def animate(name, figure, draw_next, rate):
    """A GIF of what draw_next draws, as long as it draws something."""
    writer = matplotlib.animation.PillowWriter(fps=rate)
    with writing(name) as part:
        try:
            writer.setup(figure, part, dpi=100)
        except ImportError:
            raise Failure("the Python library PIL is missing, which writes GIF (on Debian, python3-pil)") from None
        while draw_next():
            writer.grab_frame()
        writer.finish()
    plot.close(figure)


RUN_PANELS = (
    ("cells (left) and greatest level (right)", "cells", (("cells", "cells"),)),
    ("cost of all bodies", "cost", (("cost", "cost"),)),
    ("balance of the zones: 1 is even", "greatest / even share", (("balance", "balance"),)),
    ("terms of a body", "mean", (("terms", "terms"),)),
    ("kinetic energy, from positions", "mass × (grid steps / frame)²", (("kinetic", "kinetic"),)),
    ("momentum, from positions", "mass × grid steps / frame", tuple(("momentum_" + it, it) for it in "xyz")),
)


def draw_series(axes, rows, column, number, label=None):
    # What is known between two frames is drawn there.
    back = 0.5 if column.startswith(("kinetic", "momentum")) else 0
    known = [(row["step"] - back, row[column]) for row in rows if row[column] is not None]
    dots = {"marker": "o", "markersize": 3} if len(known) < 30 else {}
    axes.plot(*zip(*known), color=COLOURS[(0, 3, 2)[number]], linestyle=("-", "--", "-.")[number], linewidth=1.4, label=label, **dots)


def draw_depth(axes, rows):
    """The greatest level, on a scale of its own at the right, in the lower third of the panel."""
    right = axes.twinx()
    draw_series(right, rows, "depth", 1)
    right.spines["right"].set_visible(True)
    for column, at, below, above in (("cells", axes, 0.6, 0.1), ("depth", right, 0.1, 2.0)):
        low, high = min(row[column] for row in rows), max(row[column] for row in rows)
        room = max(high - low, 2)
        at.set_ylim(low - below * room, high + above * room)
    right.yaxis.set_major_locator(MaxNLocator(6, integer=True))
    for colour, at, side in ((COLOURS[0], axes, "left"), (COLOURS[3], right, "right")):
        at.tick_params(axis="y", colors=colour)
        at.spines[side].set_color(colour)


def run_figures(rows):
    """The figures of a run over its frames, a panel for each kind that is there."""
    panels = [it for it in RUN_PANELS if any(row[it[2][0][0]] is not None for row in rows)]
    columns = min(2, len(panels))
    deep = math.ceil(len(panels) / columns)
    figure, axes = plot.subplots(deep, columns, figsize=(4.2 * columns, 2.2 * deep + 0.2), squeeze=False, layout="constrained")
    for it in axes.flat[len(panels):]:
        it.set_visible(False)
    for at, (title, unit, series) in zip(axes.flat, panels):
        for number, (column, label) in enumerate(series):
            draw_series(at, rows, column, number, label)
        at.set_title(title)
        at.set_ylabel(unit)
        at.xaxis.set_major_locator(MaxNLocator(6, integer=True))
        at.yaxis.set_major_locator(MaxNLocator(5, integer=series[0][0] in ("cells", "cost")))
        at.ticklabel_format(axis="y", style="sci", scilimits=(-3, 6), useMathText=True)
        if series[0][0] == "cells":
            draw_depth(at, rows)
        if len(series) > 1:
            # The legend has room of its own above the lines.
            at.margins(y=0.3)
            at.legend(frameon=False, fontsize=9, ncol=len(series), loc="upper center", handlelength=2.4)
    for at in axes.flat[len(panels) - columns:len(panels)]:
        at.set_xlabel("frame")
    return figure


def accuracy(rows):
    """Errors and terms against the opening angle."""
    told = [(int(angle.split("/")[0]) / int(angle.split("/")[1]), terms, numpy.percentile(errors, (50, 99))) for angle, terms, errors in rows]
    told.sort(key=lambda it: it[0])
    figure, (upper, lower) = plot.subplots(2, 1, figsize=(6, 5.4), sharex=True, layout="constrained",
                                           gridspec_kw={"height_ratios": (3, 2)})
    at = [it[0] for it in told]
    for number, (label, shape, style) in enumerate((("median", "o", "-"), ("99th percentile", "s", "--"))):
        upper.plot(at, [it[2][number] for it in told], marker=shape, linestyle=style, color=COLOURS[(0, 3)[number]], label=label)
    upper.set_yscale("log")
    upper.set_ylabel("relative error of an acceleration")
    upper.legend(frameon=False)
    lower.plot(at, [it[1] for it in told], marker="o", color=COLOURS[2])
    lower.set_yscale("log")
    lower.yaxis.set_major_locator(LogLocator(subs=(1, 2, 5)))
    lower.yaxis.set_major_formatter(lambda value, _: format(value, ",g"))
    lower.yaxis.set_minor_locator(NullLocator())
    lower.set_ylabel("terms a body")
    lower.set_xlabel("opening angle theta")
    for it in (upper, lower):
        it.grid(True, which="major", linewidth=0.4, color="#cccccc")
    return figure
