"""How a town that is too large is cut."""

from pathlib import Path

import networkx
import pytest

import parts
from conftest import EXAMPLE, NEED, SMALL
from from_osm import town_of
from heights import flat
from network import Costs, Network, arcs_of
from town import Trouble


QUARTER = EXAMPLE / "map.osm"


def read(map_file: Path) -> Network:
    return town_of(map_file, set(NEED.split(",")), None, Costs(metres=False, height=flat))


@pytest.mark.parametrize(
    ("map_file", "most", "number"),
    [(SMALL, 17, 1), (SMALL, 10, 2), (SMALL, 9, 3), (SMALL, 7, 5), (QUARTER, 60, 4), (QUARTER, 20, 14)],
)
def test_each_part_has_tours_and_each_street_is_served_in_one(
    monkeypatch: pytest.MonkeyPatch, map_file: Path, most: int, number: int
) -> None:
    town = read(map_file)
    monkeypatch.setattr(parts, "MOST_STREETS", most)
    pieces = parts.parts(town)
    served = [piece.name for part in pieces for piece in part.pieces if piece.need]
    assert len(pieces) == number
    assert sorted(served) == sorted(piece.name for piece in town.pieces if piece.need)
    assert all(len(part.pieces) <= most for part in pieces)
    assert all(networkx.is_strongly_connected(arcs_of(part.pieces)) for part in pieces)


def test_a_street_that_fits_in_no_part_is_named(monkeypatch: pytest.MonkeyPatch) -> None:
    town = read(SMALL)
    monkeypatch.setattr(parts, "MOST_STREETS", 1)
    with pytest.raises(Trouble, match="the ways around .* alone don't fit"):
        parts.parts(town)
