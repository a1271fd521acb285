"""Heights of places, for streets that cost more uphill."""

import csv
from collections.abc import Callable
from pathlib import Path

import numpy
from scipy.interpolate import LinearNDInterpolator, NearestNDInterpolator
from scipy.spatial import QhullError

from town import Point, Trouble

HEADERS = (["lon", "lat", "height"], ["X", "Y", "Z"])

Heights = Callable[[Point], float]


def flat(_: Point) -> float:
    return 0.0


def read_heights(path: Path) -> Heights:
    """Metres above the sea at each point: linear between those of the file, and the nearest one's outside of them."""
    try:
        with path.open(encoding="utf-8-sig", newline="") as file:
            header, *rows = [record for record in csv.reader(file) if record]
            table = numpy.array([[float(text) for text in row] for row in rows])
        if header not in HEADERS:
            raise ValueError("its header isn't lon,lat,height")
        between = LinearNDInterpolator(table[:, :2], table[:, 2])
        nearest = NearestNDInterpolator(table[:, :2], table[:, 2])
    except (OSError, UnicodeDecodeError, ValueError, IndexError, QhullError, csv.Error) as error:
        reason = str(error).partition("\n")[0]
        raise Trouble(f"{path} isn't a table of heights: {reason}") from error

    def height(point: Point) -> float:
        inside = float(between(*point))
        return float(nearest(*point)) if numpy.isnan(inside) else inside

    return height
