"""Draws the streets and the tour with matplotlib."""

import math
from collections import Counter
from dataclasses import dataclass
from io import BytesIO
from pathlib import Path
from typing import Union

import matplotlib

matplotlib.use("Agg")
from matplotlib import pyplot
from matplotlib.axes import Axes
from matplotlib.figure import Figure
from matplotlib.lines import Line2D
from matplotlib.markers import MarkerStyle
from matplotlib.path import Path as Outline

from layout import Line, driven_line, point_along
from report import Step, Tour
from town import Street

WIDTH, PAGE_WIDTH = 1200, 850
"""Points. On a page the list of the turns stands beside the picture."""
LEAST_HEIGHT, MOST_HEIGHT = 500, 1500
POINTS_AN_INCH = 72
SERVED, CONNECTING = "#a8cbe8", "#dcdcdc"
SERVING, DEADHEAD = "#0b3c6f", "#d1420f"
ARROW = Outline([(-0.9, -0.7), (1.1, 0.0), (-0.9, 0.7), (-0.45, 0.0), (-0.9, -0.7)])


@dataclass(frozen=True)
class Pass:
    """A step of the tour, by its number from 1, and the share of its way where its arrow stands."""

    number: int
    step: Step
    share: float


def passes_of(tour: Tour) -> list[Pass]:
    """The arrows of a street that is passed more than once are spread along it."""
    total = Counter(step.street for step in tour.steps)
    seen: Counter[int] = Counter()
    result = []
    for number, step in enumerate(tour.steps, start=1):
        share = (seen[step.street] + 0.4) / total[step.street]
        result.append(Pass(number, step, share if step.ahead else 1 - share))
        seen[step.street] += 1
    return result


def title_of(tour: Tour) -> str:
    proved = "none is cheaper" if tour.low == tour.cost else f"none is cheaper than {tour.low}"
    return f"Tour of cost {tour.cost} ({proved}), {len(tour.steps)} steps, deadhead {tour.deadhead():.1f} %"


def figure_of(streets: list[Street], tour: Tour, lines: list[Line], width: int = WIDTH) -> Figure:
    figure, axes = pyplot.subplots(figsize=size_of(lines, width))
    axes.set_aspect("equal")
    axes.set_axis_off()
    axes.margins(0.02)
    draw_streets(axes, streets, tour, lines)
    for each in passes_of(tour):
        draw_pass(axes, each, driven_line(lines, each.step))
    axes.set_title(title_of(tour), fontsize=15)
    axes.legend(handles=legend(), loc="upper center", bbox_to_anchor=(0.5, 0.0), ncol=4, frameon=False, fontsize=10)
    figure.tight_layout(pad=0.4)
    return figure


def size_of(lines: list[Line], width: int) -> tuple[float, float]:
    """Inches: so many points wide, and as high as the town asks for."""
    points = [point for line in lines for point in line] or [(0.0, 0.0)]
    broad, tall = (max(values) - min(values) for values in zip(*points))
    wanted = width * tall / broad + 70 if broad > 0 else MOST_HEIGHT
    return width / POINTS_AN_INCH, min(max(wanted, LEAST_HEIGHT), MOST_HEIGHT) / POINTS_AN_INCH


def draw_streets(axes: Axes, streets: list[Street], tour: Tour, lines: list[Line]) -> None:
    """The streets by need; those that are passed more than once are wider."""
    passes = Counter(step.street for step in tour.steps)
    for number, (street, line) in enumerate(zip(streets, lines)):
        width = (3.0 if street.need == "no" else 4.5) + 4.0 * max(0, passes[number] - 1)
        color = CONNECTING if street.need == "no" else SERVED
        axes.plot(*line.T, color=color, linewidth=width, solid_capstyle="round", zorder=1, gid=f"street-{number}")


def draw_pass(axes: Axes, each: Pass, line: Line) -> None:
    """The driven line, an arrow on it, and the number of the step on its right side."""
    color = SERVING if each.step.serves else DEADHEAD
    point, angle = point_along(line, each.share)
    right = math.radians(angle - 90)
    marker = MarkerStyle(ARROW).rotated(deg=angle)
    axes.plot(*line.T, color=color, linewidth=0.9, zorder=2, gid=f"line-{each.number}")
    axes.plot(*point, color=color, marker=marker, markersize=9, markeredgewidth=0, zorder=3, gid=f"arrow-{each.number}")
    axes.annotate(
        str(each.number), point, xytext=(9.5 * math.cos(right), 9.5 * math.sin(right)), textcoords="offset points",
        ha="center", va="center", fontsize=8, color=color, zorder=4, gid=f"number-{each.number}",
    )  # fmt: skip


def legend() -> list[Line2D]:
    return [
        Line2D([], [], color=SERVED, linewidth=6, label="to be served (wider: passed more than once)"),
        Line2D([], [], color=CONNECTING, linewidth=6, label="only connects"),
        Line2D([], [], color=SERVING, marker=">", linewidth=1, label="serves"),
        Line2D([], [], color=DEADHEAD, marker=">", linewidth=1, label="passes without serving (deadhead)"),
    ]


def save_picture(figure: Figure, file: Union[Path, BytesIO], kind: str) -> None:
    """The same figure gives the same bytes at each run."""
    with matplotlib.rc_context({"svg.hashsalt": "kuypasha", "svg.fonttype": "none", "font.family": "sans-serif"}):
        metadata = {"Date": None, "Creator": None} if kind == "svg" else {"Software": None}
        figure.savefig(file, format=kind, dpi=2 * POINTS_AN_INCH, metadata=metadata)
    pyplot.close(figure)
