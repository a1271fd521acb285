"""What a driver is told at the beginning of each step."""

import math
from dataclasses import dataclass
from typing import Optional

import numpy

from layout import Line, driven_line, point_along
from report import Step, Tour, ends_of
from town import Places, Street

# Of a line, the part beside a junction that tells its direction there, in metres.
NEAR = 15.0
STRAIGHT, BACK = 35, 155
SIGNS = {"start": "●", "straight on": "↑", "left": "←", "right": "→", "turn round": "↶", "on": "·"}


@dataclass(frozen=True)
class Turn:
    """How a step begins, the street that it drives, and where that leads."""

    word: str
    street: str
    to: str

    def text(self) -> str:
        joint = " in " if self.word in ("start", "straight on", "on") else " into "
        return f"{self.word}{joint}{self.street}"


def turns_of(streets: list[Street], tour: Tour, lines: list[Line], places: Optional[Places]) -> list[Turn]:
    """The turn before each step. Where junctions have no places, only that the tour goes on."""
    result = []
    for before, step in zip([None, *tour.steps], tour.steps):
        street = streets[step.street]
        title = street.name if places is None else places.titles.get(street.key(), street.name)
        word = "start" if before is None else word_of(before, step, lines) if places else "on"
        result.append(Turn(word, title, ends_of(street, step.ahead)[1]))
    return result


def word_of(before: Step, step: Step, lines: list[Line]) -> str:
    if before.street == step.street and before.ahead != step.ahead:
        return "turn round"
    change = heading(driven_line(lines, step)) - (heading(driven_line(lines, before)[::-1]) + 180)
    angle = (change + 180) % 360 - 180
    if abs(angle) < STRAIGHT:
        return "straight on"
    if abs(angle) > BACK:
        return "turn round"
    return "left" if angle > 0 else "right"


def heading(line: Line) -> float:
    """The direction from the line's first point to one near by on it, in degrees from east to north."""
    length = numpy.linalg.norm(numpy.diff(line, axis=0), axis=1).sum()
    near, _ = point_along(line, min(1.0, NEAR / length) if length else 0.0)
    east, north = near - line[0]
    return math.degrees(math.atan2(north, east))
