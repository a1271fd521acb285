#!/usr/bin/python3
"""Draws the tour of a report: as a picture, a page, or a track."""

import argparse
import sys
from pathlib import Path
from typing import Optional

from layout import lines_of
from page import page_of
from picture import figure_of, save_picture
from report import Tour, read_tour
from town import Places, Street, Trouble, read_places, read_table
from tracks import geojson_of, gpx_of

PICTURES = (".svg", ".png")
TRACKS = {".geojson": geojson_of, ".gpx": gpx_of}
ENDINGS = (*PICTURES, ".html", *TRACKS)


def arguments() -> argparse.Namespace:
    parser = argparse.ArgumentParser(description=__doc__)
    parser.add_argument("table", metavar="STREETS", type=Path, help="the street table")
    parser.add_argument("report", metavar="REPORT", type=Path, help="what solve printed for it")
    parser.add_argument("places", metavar="PLACES", type=Path, nargs="?", help="the places of its junctions (GeoJSON)")
    parser.add_argument("-o", dest="output", metavar="FILE", type=Path, required=True,
                        help=f"what to write, by its ending: {', '.join(ENDINGS)}")  # fmt: skip
    return parser.parse_args()


def write(output: Path, streets: list[Street], tour: Tour, places: Optional[Places]) -> None:
    kind = output.suffix
    if kind in TRACKS:
        if places is None:
            raise Trouble(f"a {kind} file needs the places of the junctions: name their file behind the report")
        output.write_text(TRACKS[kind](streets, tour, places), encoding="utf-8")
        return
    lines = lines_of(streets, places)
    if kind in PICTURES:
        save_picture(figure_of(streets, tour, lines), output, kind[1:])
    else:
        output.write_text(page_of(streets, tour, lines, places), encoding="utf-8")


def run(options: argparse.Namespace) -> None:
    if options.output.suffix not in ENDINGS:
        raise Trouble(f"{options.output} ends in none of {', '.join(ENDINGS)}")
    streets = read_table(options.table)
    tour = read_tour(options.report, streets)
    places = None if options.places is None else read_places(options.places)
    try:
        write(options.output, streets, tour, places)
    except OSError as error:
        raise Trouble(f"{options.output} can't be written: {error.strerror}") from error


def main() -> int:
    try:
        run(arguments())
    except Trouble as trouble:
        print(f"draw: {trouble}", file=sys.stderr)
        return 2
    return 0


if __name__ == "__main__":
    sys.exit(main())
