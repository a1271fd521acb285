"""Reads the drivable ways of an OpenStreetMap extract."""

import re
from collections.abc import Iterator, Mapping
from dataclasses import dataclass
from itertools import groupby
from pathlib import Path
from typing import Optional

import osmium

from town import Point, Trouble

# Kilometres an hour where the map has no maxspeed.
SPEEDS = {
    "motorway": 100, "motorway_link": 60, "trunk": 80, "trunk_link": 50, "primary": 50, "primary_link": 40,
    "secondary": 50, "secondary_link": 40, "tertiary": 50, "tertiary_link": 40, "unclassified": 40,
    "residential": 30, "living_street": 10, "service": 15, "road": 30, "track": 15, "pedestrian": 10, "busway": 30,
}  # fmt: skip

# These are driven only where they are to be served.
SPECIAL = {"track", "pedestrian", "busway"}

CLOSED_SERVICES = {"driveway", "parking_aisle", "drive-through"}
CLOSED_ACCESS = {"no", "private", "agricultural", "forestry", "emergency", "military"}
WALKING = 7.0
UNITS = {"": 1.0, "km/h": 1.0, "kmh": 1.0, "kph": 1.0, "mph": 1.609344, "knots": 1.852}
SPEED_TEXT = re.compile(r"(\d+(?:\.\d+)?) ?([a-z/]*)")


@dataclass(frozen=True)
class Box:
    """A part of the map between two longitudes and two latitudes."""

    west: float
    south: float
    east: float
    north: float

    def holds(self, point: Point) -> bool:
        return self.west <= point[0] <= self.east and self.south <= point[1] <= self.north


@dataclass(frozen=True)
class Way:
    """A drivable way. A speed, in metres a second, is None where the direction may not be driven."""

    title: str
    highway: str
    nodes: tuple[int, ...]
    forward: Optional[float]
    backward: Optional[float]


@dataclass
class Map:
    """The drivable ways, and where their nodes lie. `missing` counts nodes that ways name and the extract lacks."""

    ways: list[Way]
    points: dict[int, Point]
    missing: int


def read_map(path: Path, need: set[str], box: Optional[Box]) -> Map:
    reader = WayReader((set(SPEEDS) - SPECIAL) | need, box)
    if not path.is_file():
        raise Trouble(f"{path} is no file")
    try:
        reader.apply_file(str(path), locations=True)
    except RuntimeError as error:
        raise Trouble(f"{path} can't be read as a map: {error}") from error
    return Map(reader.ways, reader.points, len(reader.missing))


class WayReader(osmium.SimpleHandler):
    """Collects the ways of some classes; a way that leaves the box is cut there."""

    def __init__(self, classes: set[str], box: Optional[Box]) -> None:
        super().__init__()
        self.classes = classes
        self.box = box
        self.ways: list[Way] = []
        self.points: dict[int, Point] = {}
        self.missing: set[int] = set()

    def way(self, way: osmium.osm.Way) -> None:
        tags = dict((tag.k, tag.v) for tag in way.tags)
        highway = tags.get("highway", "")
        if highway not in self.classes or not is_open(tags):
            return
        forward, backward = directions(tags)
        speeds = [
            speed(tags, highway, "forward") if forward else None,
            speed(tags, highway, "backward") if backward else None,
        ]
        for nodes in self.runs(way):
            self.ways.append(Way(title_of(tags, highway), highway, nodes, *speeds))

    def runs(self, way: osmium.osm.Way) -> Iterator[tuple[int, ...]]:
        """The longest runs of at least two nodes that are in the extract and in the box."""
        for inside, group in groupby(way.nodes, key=self.keeps):
            nodes = [ref for ref, _ in groupby(node.ref for node in group)]
            if inside and len(nodes) > 1:
                yield tuple(nodes)

    def keeps(self, node: osmium.osm.NodeRef) -> bool:
        if not node.location.valid():
            self.missing.add(node.ref)
            return False
        point = (node.location.lon, node.location.lat)
        self.points[node.ref] = point
        return self.box is None or self.box.holds(point)


def is_open(tags: Mapping[str, str]) -> bool:
    """Whether a vehicle may use the way; of the tags of access the most special one counts."""
    if tags.get("area") == "yes" or tags.get("service") in CLOSED_SERVICES or tags.get("oneway") == "reversible":
        return False
    access = (tags[key] for key in ("motor_vehicle", "vehicle", "access") if key in tags)
    return next(access, "yes") not in CLOSED_ACCESS


def directions(tags: Mapping[str, str]) -> tuple[bool, bool]:
    """Whether the way may be driven along its nodes, and against them."""
    oneway = tags.get("oneway", "")
    if oneway in ("yes", "true", "1"):
        return True, False
    if oneway in ("-1", "reverse"):
        return False, True
    implied = is_roundabout(tags) or tags["highway"] == "motorway"
    return True, oneway == "no" or not implied


def is_roundabout(tags: Mapping[str, str]) -> bool:
    return tags.get("junction") in ("roundabout", "circular")


def speed(tags: Mapping[str, str], highway: str, direction: str) -> float:
    """Metres a second."""
    text = tags.get(f"maxspeed:{direction}", tags.get("maxspeed", "")).strip().lower()
    match = SPEED_TEXT.fullmatch(text)
    if text == "walk":
        hourly = WALKING
    elif match and float(match[1]) > 0 and match[2] in UNITS:
        hourly = float(match[1]) * UNITS[match[2]]
    else:
        hourly = SPEEDS[highway]
    return hourly / 3.6


def title_of(tags: Mapping[str, str], highway: str) -> str:
    """The name of the way in the map, without what no table may hold."""
    spelled = tags.get("name") or tags.get("ref") or ""
    name = " ".join("".join(sign if sign.isprintable() else " " for sign in spelled).split())
    if name:
        return name
    return "roundabout" if is_roundabout(tags) else "unnamed " + highway.replace("_", " ")
