"""The table and the places that a map gives."""

import csv
import gzip
from pathlib import Path

import networkx
import osmium
import pytest

from conftest import EXAMPLE, NEED, SMALL, run_tool, write_grid
from town import Street, read_places, read_table


def table_of(folder: Path, map_file: Path, *words: str) -> dict[str, Street]:
    """Runs the tool, and gives the streets by their names."""
    run = run_tool("from_osm.py", map_file, "--need", NEED, "--places", folder / "places.geojson", *words)
    assert run.returncode == 0, run.stderr
    (folder / "streets.csv").write_text(run.stdout, encoding="utf-8")
    return {street.name: street for street in read_table(folder / "streets.csv")}


def refused(folder: Path, *words: object) -> str:
    """Runs the tool, which has to say one clear thing and to write nothing."""
    run = run_tool("from_osm.py", *words, "--places", folder / "none.geojson")
    assert (run.returncode, run.stdout) == (2, "")
    assert "Traceback" not in run.stderr
    assert not (folder / "none.geojson").exists()
    return run.stderr


@pytest.fixture(scope="module")
def streets(tmp_path_factory: pytest.TempPathFactory) -> dict[str, Street]:
    return table_of(tmp_path_factory.mktemp("small"), SMALL)


def test_the_table_and_the_places_are_the_stored_ones(tmp_path: Path) -> None:
    table_of(tmp_path, SMALL)
    assert (tmp_path / "streets.csv").read_bytes() == SMALL.with_suffix(".csv").read_bytes()
    assert (tmp_path / "places.geojson").read_bytes() == SMALL.with_suffix(".geojson").read_bytes()


def test_one_way_streets_are_driven_as_the_map_says(streets: dict[str, Street]) -> None:
    assert streets["Weir Lane"].forward and streets["Weir Lane"].backward is None
    assert streets["Kiln Lane"].forward is None and streets["Kiln Lane"].backward


def test_a_roundabout_is_cut_where_streets_meet_it_and_driven_round(streets: dict[str, Street]) -> None:
    blocks = [street for name, street in streets.items() if name.startswith("roundabout")]
    assert [(street.need, street.backward) for street in blocks] == [("no", None)] * 3
    assert [street.end for street in blocks] == [street.start for street in blocks[1:] + blocks[:1]]


def test_a_dead_end_is_a_junction(streets: dict[str, Street]) -> None:
    assert streets["Pound Court"].end == "Pound Court, end"


def test_a_bridge_meets_nothing_that_it_crosses(streets: dict[str, Street]) -> None:
    assert streets["Flyover"].start == "Flyover & High Street & West Road"
    assert streets["Flyover"].end == "East Road & Flyover & Low Road"


def test_only_drivable_streets_are_there_and_only_the_named_classes_are_served(streets: dict[str, Street]) -> None:
    assert not {"Goose Path", "unnamed service"} & set(streets)
    assert {name for name, street in streets.items() if street.need == "no"} == {
        "High Street, block 1", "High Street, block 2", "Flyover",
        "roundabout, block 1", "roundabout, block 2", "roundabout, block 3",
    }  # fmt: skip


def test_what_cannot_be_reached_is_left_out_and_counted(tmp_path: Path) -> None:
    run = run_tool("from_osm.py", SMALL, "--need", NEED, "--places", tmp_path / "places.geojson")
    assert "Depot Exit" not in run.stdout and "Island Road" not in run.stdout
    assert "left out that can't be reached and left: 2, to be served: 2" in run.stderr


def test_costs_are_seconds_by_the_speed_of_the_street(streets: dict[str, Street]) -> None:
    assert streets["East Road, block 1"].forward == round(111.2 / (50 / 3.6))
    assert streets["West Road, block 1"].forward == round(111.2 / (30 / 3.6))
    assert streets["Mill Street, block 2"].forward == round(89.0 / (7 / 3.6))


def test_costs_are_metres_where_they_are_asked_for(tmp_path: Path) -> None:
    assert table_of(tmp_path, SMALL, "--metres")["East Road, block 1"].forward == 111


def test_uphill_costs_more(tmp_path: Path) -> None:
    heights = tmp_path / "heights.csv"
    heights.write_text("lon,lat,height\n-30.1,45,0\n-29.9,45,0\n-30.1,45.01,100\n-29.9,45.01,100\n")
    road = table_of(tmp_path, SMALL, "--metres", "--slope", str(heights))["West Road, block 1"]
    assert (road.forward, road.backward) == (111, 161)


def test_a_box_cuts_the_map(tmp_path: Path) -> None:
    streets = table_of(tmp_path, SMALL, "--bbox=-30.001,45.0015,-29.99,45.01")
    assert "Weir Lane" in streets and not any(name.startswith("Low Road") for name in streets)


def test_the_three_kinds_of_file_give_the_same(tmp_path: Path, streets: dict[str, Street]) -> None:
    packed = tmp_path / "small.osm.gz"
    packed.write_bytes(gzip.compress(SMALL.read_bytes()))
    binary = tmp_path / "small.osm.pbf"
    copy_map(SMALL, binary)
    assert table_of(tmp_path, packed) == table_of(tmp_path, binary) == streets


def copy_map(source: Path, target: Path) -> None:
    writer = osmium.SimpleWriter(str(target))

    class Copier(osmium.SimpleHandler):
        def node(self, node: osmium.osm.Node) -> None:
            writer.add_node(node)

        def way(self, way: osmium.osm.Way) -> None:
            writer.add_way(way)

    Copier().apply_file(str(source))
    writer.close()


def test_each_street_and_junction_has_a_place(tmp_path: Path) -> None:
    streets = table_of(tmp_path, SMALL)
    places = read_places(tmp_path / "places.geojson")
    assert set(places.lines) == {street.key() for street in streets.values()}
    for street in streets.values():
        line = places.lines[street.key()]
        assert (line[0], line[-1]) == (places.junctions[street.start], places.junctions[street.end])


def test_a_long_name_is_shortened_and_told(tmp_path: Path) -> None:
    long = "Straße der zweiundzwanzig unermüdlichen Straßenkehrerinnen und Kehrer"
    renamed = tmp_path / "long.osm"
    renamed.write_text(SMALL.read_text(encoding="utf-8").replace("High Street", long), encoding="utf-8")
    run = run_tool("from_osm.py", renamed, "--need", NEED, "--places", tmp_path / "places.geojson")
    assert f"names of up to 64 bytes: {long}" in run.stderr
    names = {field for record in csv.reader(run.stdout.splitlines()) for field in record[:3]}
    assert max(len(name.encode()) for name in names) <= 64
    assert any(name.startswith("Straße der") and name.endswith("…, block 2") for name in names)


def test_a_map_without_some_nodes_ends_there(tmp_path: Path) -> None:
    cut = tmp_path / "cut.osm"
    lines = SMALL.read_text(encoding="utf-8").splitlines()
    cut.write_text("\n".join(line for line in lines if '<node id="41"' not in line), encoding="utf-8")
    run = run_tool("from_osm.py", cut, "--need", NEED, "--places", tmp_path / "places.geojson")
    assert run.returncode == 0 and "Pound Court," not in run.stdout
    assert "nodes of ways that the map lacks (the ways end there): 1" in run.stderr


@pytest.mark.parametrize(
    ("name", "text", "message"),
    [
        ("none.osm", None, "is no file"),
        ("words.osm", "no map at all", "can't be read as a map"),
        ("half.osm", '<osm version="0.6"><node id="1" version="1"', "can't be read as a map"),
        ("map.osm.pbf", "no map at all", "can't be read as a map"),
        ("map.txt", "<osm/>", "can't be read as a map"),
        ("empty.osm", '<osm version="0.6"></osm>', "no street of the classes residential"),
    ],
)
def test_bad_maps_are_refused(tmp_path: Path, name: str, text: str, message: str) -> None:
    if text is not None:
        (tmp_path / name).write_text(text)
    assert message in refused(tmp_path, tmp_path / name, "--need", "residential")


@pytest.mark.parametrize(
    ("words", "message"),
    [
        (["--need", "residental"], "'residental' is none of"),
        (["--need", "residential", "--bbox=1,2,3"], "isn't four numbers"),
        (["--need", "residential", "--bbox=3,2,1,4"], "isn't a box"),
        (["--need", "track"], "no street of the classes track"),
        (["--need", "residential", "--part", "2"], "there is no part 2"),
        (["--need", "residential", "--slope", str(SMALL)], "isn't a table of heights"),
    ],
)
def test_bad_words_are_refused(tmp_path: Path, words: list[str], message: str) -> None:
    assert message in refused(tmp_path, SMALL, *words)


def test_a_large_town_is_refused_with_the_limits_and_cut_into_parts(tmp_path: Path) -> None:
    large = write_grid(tmp_path / "large.osm", 46)
    message = refused(tmp_path, large, "--need", NEED)
    assert "2116 junctions, 4140 streets" in message and "up to 2000, 4000 and 4000" in message
    assert "one of its 2 parts" in message
    parts = [table_of(tmp_path, large, "--part", str(number)) for number in (1, 2)]
    served = [name for part in parts for name, street in part.items() if street.need == "yes"]
    assert len(served) == len(set(served)) == 4140
    for part in parts:
        assert len(part) <= 4000 and is_connected(part)


def is_connected(part: dict[str, Street]) -> bool:
    graph = networkx.DiGraph()
    graph.add_edges_from((street.start, street.end) for street in part.values() if street.forward)
    graph.add_edges_from((street.end, street.start) for street in part.values() if street.backward)
    return len(graph) <= 2000 and networkx.is_strongly_connected(graph)


def test_the_example_is_what_its_map_gives(tmp_path: Path) -> None:
    table_of(tmp_path, EXAMPLE / "map.osm", "--slope", str(EXAMPLE / "heights.csv"))
    assert (tmp_path / "streets.csv").read_bytes() == (EXAMPLE / "streets.csv").read_bytes()
    assert (tmp_path / "places.geojson").read_bytes() == (EXAMPLE / "junctions.geojson").read_bytes()
