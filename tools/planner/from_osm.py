#!/usr/bin/python3
"""Makes a street table, and the places of its junctions, from an OpenStreetMap extract."""

import argparse
import sys
from pathlib import Path
from typing import Optional

from heights import flat, read_heights
from network import Costs, Network, network_of, pieces_of, reachable, too_long
from parts import fits, parts, sizes
from town import MOST_DEMANDS, MOST_JUNCTIONS, MOST_STREETS, NAME_BYTES, Trouble, places_text, write_table
from ways import SPEEDS, Box, read_map


def arguments() -> argparse.Namespace:
    parser = argparse.ArgumentParser(description=__doc__)
    parser.add_argument("map", metavar="MAP", type=Path, help="an extract: .osm, .osm.gz or .osm.pbf")
    parser.add_argument("--need", required=True, type=classes,
                        help="the classes to be served: residential,living_street,..")  # fmt: skip
    parser.add_argument("--slope", metavar="FILE", type=Path, help="a table lon,lat,height: uphill costs more")
    parser.add_argument("--bbox", metavar="W,S,E,N", type=box, help="only this box; written --bbox=W,S,E,N")
    parser.add_argument("--metres", action="store_true", help="costs are metres and not seconds")
    parser.add_argument("--part", metavar="N", type=int, help="part N of a town that is too large for the program")
    parser.add_argument("--places", metavar="FILE", type=Path, default=Path("junctions.geojson"),
                        help="where the places go (junctions.geojson)")  # fmt: skip
    return parser.parse_args()


def classes(text: str) -> set[str]:
    names = {name.strip() for name in text.split(",")}
    unknown = sorted(names - set(SPEEDS))
    if unknown:
        raise argparse.ArgumentTypeError(f"'{unknown[0]}' is none of {', '.join(SPEEDS)}")
    return names


def box(text: str) -> Box:
    try:
        west, south, east, north = (float(part) for part in text.split(","))
    except ValueError:
        raise argparse.ArgumentTypeError(f"'{text}' isn't four numbers W,S,E,N") from None
    if not (west < east and south < north):
        raise argparse.ArgumentTypeError(f"'{text}' isn't a box: west, south, east, north in degrees")
    return Box(west, south, east, north)


def say(text: str) -> None:
    print(f"from_osm: {text}", file=sys.stderr)


def town_of(path: Path, need: set[str], within: Optional[Box], costs: Costs) -> Network:
    """The network of the map; what is left out of it is said."""
    plan = read_map(path, need, within)
    if plan.missing:
        say(f"nodes of ways that the map lacks (the ways end there): {plan.missing}")
    pieces = pieces_of(plan, need, costs)
    if not any(piece.need for piece in pieces):
        raise Trouble(f"{path} has no street of the classes {','.join(sorted(need))}")
    kept = reachable(pieces)
    if len(kept) < len(pieces):
        needed = sum(piece.need for piece in pieces) - sum(piece.need for piece in kept)
        say(f"streets left out that can't be reached and left: {len(pieces) - len(kept)}, to be served: {needed}")
    for title in too_long(kept):
        say(f"shortened, as the program takes names of up to {NAME_BYTES} bytes: {title}")
    return network_of(kept, plan.points)


def part_of(town: Network, number: Optional[int]) -> Network:
    """The part with this number, or the whole town where there is none."""
    if number is None and fits(town):
        return town
    several = parts(town)
    if number is None:
        junctions, streets, demands = sizes(town)
        raise Trouble(
            f"the map gives {junctions} junctions, {streets} streets and {demands} demands, "
            f"and the program takes up to {MOST_JUNCTIONS}, {MOST_STREETS} and {MOST_DEMANDS}: "
            f"name one of its {len(several)} parts with --part, or a smaller --bbox"
        )
    if not 1 <= number <= len(several):
        raise Trouble(f"there is no part {number}: the town has {len(several)} (1 to {len(several)})")
    return several[number - 1]


def run(options: argparse.Namespace) -> None:
    height = flat if options.slope is None else read_heights(options.slope)
    town = town_of(options.map, options.need, options.bbox, Costs(options.metres, height))
    part = part_of(town, options.part)
    try:
        options.places.write_text(places_text(part.places()), encoding="utf-8")
    except OSError as error:
        raise Trouble(f"{options.places} can't be written: {error.strerror}") from error
    sys.stdout.reconfigure(encoding="utf-8", newline="")
    write_table(part.streets(), sys.stdout)
    junctions, streets, demands = sizes(part)
    say(f"streets: {streets}, to be served: {demands}, junctions: {junctions}")


def main() -> int:
    try:
        run(arguments())
    except Trouble as trouble:
        say(str(trouble))
        return 2
    return 0


if __name__ == "__main__":
    sys.exit(main())
