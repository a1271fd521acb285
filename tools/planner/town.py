"""The street table and the places of its junctions, as both tools read and write them."""

import csv
import json
from collections.abc import Iterable
from dataclasses import dataclass, field
from pathlib import Path
from typing import Optional, TextIO

HEADER = ["street", "from", "to", "forward", "backward", "need"]
NEEDS = {"yes": "yes", "1": "yes", "no": "no", "0": "no", "forward": "forward", "backward": "backward", "both": "both"}

MOST_STREETS = 4000
MOST_JUNCTIONS = 2000
MOST_DEMANDS = 4000
NAME_BYTES = 64

Point = tuple[float, float]
"""Longitude and latitude."""


class Trouble(Exception):
    """What the user did or gave that can't be worked with, in one sentence."""


@dataclass(frozen=True)
class Street:
    """A row of the table. A cost is None where the direction may not be driven."""

    name: str
    start: str
    end: str
    forward: Optional[int]
    backward: Optional[int]
    need: str

    def key(self) -> tuple[str, str, str]:
        return self.name, self.start, self.end


@dataclass
class Places:
    """Where junctions and streets lie. `titles` has the name that the map gives to a street."""

    junctions: dict[str, Point] = field(default_factory=dict)
    lines: dict[tuple[str, str, str], list[Point]] = field(default_factory=dict)
    titles: dict[tuple[str, str, str], str] = field(default_factory=dict)


def read_table(path: Path) -> list[Street]:
    """The streets of a table; the program itself says more about a faulty one."""
    try:
        with path.open(encoding="utf-8-sig", newline="") as file:
            records = [[text.strip(" \t") for text in record] for record in csv.reader(file) if record]
    except (OSError, UnicodeDecodeError, csv.Error) as error:
        raise Trouble(f"{path} can't be read as a street table: {error}") from error
    if not records or records[0] != HEADER:
        raise Trouble(f"{path} isn't a street table: its header isn't {','.join(HEADER)}")
    return [street_of(record, f"{path} row {row}") for row, record in enumerate(records[1:], start=1)]


def street_of(record: list[str], where: str) -> Street:
    if len(record) != len(HEADER):
        raise Trouble(f"{where} has {len(record)} fields and not {len(HEADER)}")
    name, start, end, forward, backward, need = record
    if need not in NEEDS:
        raise Trouble(f"{where} has the need '{need}', which is none of {', '.join(NEEDS)}")
    return Street(name, start, end, cost_of(forward, where), cost_of(backward, where), NEEDS[need])


def cost_of(text: str, where: str) -> Optional[int]:
    if text in ("", "-"):
        return None
    if not (text.isascii() and text.isdigit()):
        raise Trouble(f"{where} has the cost '{text}', which isn't a whole number")
    return int(text)


def write_table(streets: Iterable[Street], file: TextIO) -> None:
    writer = csv.writer(file, lineterminator="\n")
    writer.writerow(HEADER)
    for street in streets:
        costs = ["-" if cost is None else cost for cost in (street.forward, street.backward)]
        writer.writerow([street.name, street.start, street.end, *costs, street.need])


def junctions_of(streets: Iterable[Street]) -> list[str]:
    """The names of the junctions, in the order of the table."""
    return list(dict.fromkeys(name for street in streets for name in (street.start, street.end)))


def read_places(path: Path) -> Places:
    """Reads the points with a property `junction` and the lines with `street`, `from` and `to` of a GeoJSON file."""
    places = Places()
    try:
        for feature in json.loads(path.read_text(encoding="utf-8"))["features"]:
            add_place(places, feature["geometry"], feature["properties"])
    except (OSError, UnicodeDecodeError, ValueError, KeyError, TypeError, IndexError) as error:
        raise Trouble(f"{path} isn't a GeoJSON file with the places of junctions: {error!r}") from error
    return places


def add_place(places: Places, geometry: dict, properties: dict) -> None:
    if geometry["type"] == "Point" and "junction" in properties:
        places.junctions[properties["junction"]] = point_of(geometry["coordinates"])
    elif geometry["type"] == "LineString" and "street" in properties:
        key = properties["street"], properties["from"], properties["to"]
        first, second, *others = geometry["coordinates"]
        places.lines[key] = [point_of(pair) for pair in (first, second, *others)]
        places.titles[key] = properties.get("name", properties["street"])


def point_of(coordinates: list) -> Point:
    return float(coordinates[0]), float(coordinates[1])


def places_text(places: Places) -> str:
    """The places as GeoJSON, a feature in each line."""
    points = [feature("Point", place, {"junction": name}) for name, place in places.junctions.items()]
    lines = [
        feature("LineString", line, {"street": key[0], "from": key[1], "to": key[2], "name": places.titles[key]})
        for key, line in places.lines.items()
    ]
    return collection(points + lines)


def feature(kind: str, coordinates: object, properties: dict) -> dict:
    return {"type": "Feature", "geometry": {"type": kind, "coordinates": coordinates}, "properties": properties}


def collection(features: list[dict]) -> str:
    rows = ",\n".join(json.dumps(each, ensure_ascii=False) for each in features)
    return '{"type": "FeatureCollection", "features": [\n' + rows + "\n]}\n"
