"""Where each street of a table is drawn: by the places of its junctions, or by a layout where there are none."""

import math
from collections import Counter
from typing import Optional

import networkx
import numpy

from report import Step
from town import Places, Point, Street, Trouble, junctions_of

METRES_A_DEGREE = 111195.0
SMALL = 300
"""Up to so many junctions, a slower layout that is better to read takes a few seconds."""

Line = numpy.ndarray
"""Points of a plane, in rows."""


def lines_of(streets: list[Street], places: Optional[Places]) -> list[Line]:
    if not streets:
        raise Trouble("there is no street to draw")
    return laid_out(streets) if places is None else placed(streets, places)


def map_line(street: Street, places: Places) -> list[Point]:
    """The street on the map; a straight line where only its junctions have places."""
    for name in (street.start, street.end):
        if name not in places.junctions:
            raise Trouble(f"the places are those of another table: there is none for the junction {name}")
    return places.lines.get(street.key(), [places.junctions[street.start], places.junctions[street.end]])


def placed(streets: list[Street], places: Places) -> list[Line]:
    """The streets in metres, on a plane that touches the map at its middle."""
    lines = [numpy.array(map_line(street, places)) for street in streets]
    middle = numpy.concatenate(lines).mean(axis=0)
    scale = METRES_A_DEGREE * numpy.array([math.cos(math.radians(middle[1])), 1.0])
    return [(line - middle) * scale for line in lines]


def laid_out(streets: list[Street]) -> list[Line]:
    """The streets between junctions that a layout places, about 100 units long. Such as join the same two are bent."""
    graph = networkx.Graph()
    graph.add_nodes_from(junctions_of(streets))
    graph.add_edges_from((street.start, street.end) for street in streets if street.start != street.end)
    if len(graph) <= SMALL:
        places = networkx.kamada_kawai_layout(graph)
    else:
        places = networkx.spring_layout(graph, seed=1, iterations=200)
    lengths = [numpy.linalg.norm(places[start] - places[end]) for start, end in graph.edges]
    scale = 100 / (numpy.mean(lengths) if lengths else 1.0)
    seen: Counter[frozenset[str]] = Counter()
    lines = []
    for street in streets:
        pair = frozenset((street.start, street.end))
        lines.append(bent(places[street.start] * scale, places[street.end] * scale, seen[pair]))
        seen[pair] += 1
    return lines


def bent(start: Line, end: Line, before: int) -> Line:
    """A line with a bend that grows with the number of lines before it, or a circle where it leads back."""
    turns = numpy.linspace(0, 2 * math.pi, 25)
    if numpy.array_equal(start, end):
        radius = 15 + 8 * before
        return start + radius * numpy.column_stack([numpy.sin(turns), 1 - numpy.cos(turns)])
    parts = numpy.linspace(0, 1, 2 if before == 0 else 15)[:, None]
    along = end - start
    aside = numpy.array([-along[1], along[0]]) * 0.2 * before
    return start + parts * along + 4 * parts * (1 - parts) * aside


def driven_line(lines: list[Line], step: Step) -> Line:
    line = lines[step.street]
    return line if step.ahead else line[::-1]


def point_along(line: Line, share: float) -> tuple[Line, float]:
    """The point at a share of the line's length, and the line's direction there, in degrees from east to north."""
    legs = numpy.diff(line, axis=0)
    passed = numpy.concatenate([[0.0], numpy.cumsum(numpy.linalg.norm(legs, axis=1))])
    place = share * passed[-1]
    point = numpy.array([numpy.interp(place, passed, line[:, axis]) for axis in (0, 1)])
    leg = legs[min(numpy.searchsorted(passed, place, side="right"), len(legs)) - 1]
    return point, math.degrees(math.atan2(leg[1], leg[0]))
