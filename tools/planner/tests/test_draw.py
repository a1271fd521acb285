"""What is drawn of a tour, and which reports are refused."""

import json
from pathlib import Path
from xml.etree import ElementTree

import numpy
import pytest

from conftest import EXAMPLE, EXAMPLES, SMALL, run_tool
from layout import laid_out, placed
from report import Tour, read_tour
from town import Street, read_places, read_table
from turns import turns_of

TABLE, REPORT, PLACES = (SMALL.with_suffix(ending) for ending in (".csv", ".report", ".geojson"))
NO_STEPS = "optimal 0\nstreets {} junctions {} required 0 class empty\nnodes 1 done 1 cuts 0 blind 0\nsteps 0\n"
GPX = {"gpx": "http://www.topografix.com/GPX/1/1"}


def draw(output: Path, *files: Path) -> str:
    run = run_tool("draw.py", *(files or (TABLE, REPORT, PLACES)), "-o", output)
    assert (run.returncode, run.stdout, run.stderr) == (0, "", "")
    return output.read_text(encoding="utf-8")


def refused(output: Path, *files: Path) -> str:
    run = run_tool("draw.py", *files, "-o", output)
    assert (run.returncode, run.stdout, output.exists()) == (2, "", False)
    assert "Traceback" not in run.stderr
    return run.stderr


@pytest.fixture
def streets() -> list[Street]:
    return read_table(TABLE)


@pytest.fixture
def tour(streets: list[Street]) -> Tour:
    return read_tour(REPORT, streets)


def test_the_first_pass_of_a_street_serves_it(streets: list[Street], tour: Tour) -> None:
    served = [step.street for step in tour.steps if step.serves]
    assert sorted(served) == [number for number, street in enumerate(streets) if street.need == "yes"]
    assert (tour.cost, tour.low) == (250, 250)
    assert tour.deadhead() == pytest.approx(100 * (250 - 186) / 250)


def test_an_svg_has_each_street_and_the_steps_in_order(tmp_path: Path, tour: Tour) -> None:
    text = draw(tmp_path / "tour.svg")
    ids = [element.get("id") for element in ElementTree.fromstring(text).iter()]
    assert [f"street-{number}" for number in range(17)] == [name for name in ids if str(name).startswith("street-")]
    for kind in ("line", "arrow", "number"):
        wanted = [f"{kind}-{number}" for number in range(1, len(tour.steps) + 1)]
        assert sorted(wanted) == sorted(name for name in ids if str(name).startswith(f"{kind}-"))
    assert "Tour of cost 250 (none is cheaper), 17 steps, deadhead 25.6 %" in text
    assert text == draw(tmp_path / "again.svg")


def test_a_png_is_twice_1200_dots_wide(tmp_path: Path) -> None:
    assert run_tool("draw.py", TABLE, REPORT, PLACES, "-o", tmp_path / "tour.png").returncode == 0
    start = (tmp_path / "tour.png").read_bytes()[:24]
    assert start[1:4] == b"PNG" and int.from_bytes(start[16:20], "big") == 2400


def test_without_places_a_layout_is_drawn(tmp_path: Path) -> None:
    assert 'id="arrow-17"' in draw(tmp_path / "tour.svg", TABLE, REPORT)


def test_a_layout_keeps_apart_streets_that_join_the_same_junctions() -> None:
    streets = [Street(name, "a", end, 1, 1, "yes") for name, end in (("p", "b"), ("q", "b"), ("loop", "a"))]
    straight, bent, loop = laid_out(streets)
    apart = numpy.linalg.norm(bent[len(bent) // 2] - straight.mean(axis=0))
    assert apart == pytest.approx(0.2 * numpy.linalg.norm(straight[1] - straight[0]))
    assert loop[0] == pytest.approx(loop[-1]) and loop[0] == pytest.approx(straight[0])
    assert numpy.ptp(loop, axis=0) == pytest.approx([30, 30], abs=1)


def test_geojson_has_a_line_for_each_step(tmp_path: Path, streets: list[Street], tour: Tour) -> None:
    features = json.loads(draw(tmp_path / "tour.geojson"))["features"]
    assert [feature["properties"]["step"] for feature in features] == list(range(1, 18))
    assert sum(feature["properties"]["cost"] for feature in features) == tour.cost
    lines = [feature["geometry"]["coordinates"] for feature in features]
    assert all(before[-1] == after[0] for before, after in zip(lines[-1:] + lines, lines))


def test_gpx_has_the_turns_and_a_closed_track(tmp_path: Path) -> None:
    root = ElementTree.fromstring(draw(tmp_path / "tour.gpx").encode())
    names = [element.text for element in root.findall("gpx:rte/gpx:rtept/gpx:name", GPX)]
    assert names[:3] == ["start in High Street", "right into East Road", "right into Low Road"]
    track = [(point.get("lat"), point.get("lon")) for point in root.findall("gpx:trk/gpx:trkseg/gpx:trkpt", GPX)]
    assert track[0] == track[-1] and len(track) > 17


def test_turns_are_told_as_they_are_driven(streets: list[Street], tour: Tour) -> None:
    places = read_places(PLACES)
    words = [turn.word for turn in turns_of(streets, tour, placed(streets, places), places)]
    assert words[:6] == ["start", "right", "straight on", "right", "turn round", "left"]
    assert words[10:12] == ["left", "turn round"]


def test_an_unfinished_report_names_its_bound(tmp_path: Path) -> None:
    report = tmp_path / "report.txt"
    report.write_text(REPORT.read_text(encoding="utf-8").replace("optimal 250", "unfinished 240 250"), encoding="utf-8")
    assert "none is cheaper than 240" in draw(tmp_path / "tour.svg", TABLE, report, PLACES)


def test_a_name_may_hold_what_ends_a_line_elsewhere(tmp_path: Path) -> None:
    for source, copy in ((TABLE, "streets.csv"), (REPORT, "report.txt")):
        text = source.read_text(encoding="utf-8").replace("Pound Court", "Pound\u2028Court")
        (tmp_path / copy).write_text(text, encoding="utf-8")
    assert len(read_tour(tmp_path / "report.txt", read_table(tmp_path / "streets.csv")).steps) == 17


def test_a_tour_without_steps_is_a_page_too(tmp_path: Path) -> None:
    table, report = tmp_path / "streets.csv", tmp_path / "report.txt"
    table.write_text("street,from,to,forward,backward,need\na,b,c,1,1,no\n")
    report.write_text(NO_STEPS.format(1, 2))
    assert "Tour of cost 0 (none is cheaper), 0 steps" in draw(tmp_path / "tour.html", table, report)


def test_all_tables_of_the_examples_are_read() -> None:
    tables = sorted(EXAMPLES.glob("*/streets.csv"))
    assert len(tables) >= 5 and all(read_table(table) for table in tables)


def test_the_report_of_the_example_belongs_to_its_table() -> None:
    streets = read_table(EXAMPLE / "streets.csv")
    assert read_tour(EXAMPLE / "report.txt", streets).steps
    assert len(placed(streets, read_places(EXAMPLE / "junctions.geojson"))) == len(streets)


def test_the_report_of_another_town_is_refused(tmp_path: Path) -> None:
    assert "report of another table" in refused(tmp_path / "tour.svg", TABLE, EXAMPLE / "report.txt")
    assert "report of another table" in refused(tmp_path / "tour.svg", EXAMPLE / "streets.csv", REPORT)


def test_the_places_of_another_town_are_refused(tmp_path: Path) -> None:
    message = refused(tmp_path / "tour.svg", TABLE, REPORT, EXAMPLE / "junctions.geojson")
    assert "places are those of another table" in message


@pytest.mark.parametrize(
    ("old", "new", "message"),
    [
        ("optimal 250", "optimal 251", "its steps don't cost 251"),
        ("optimal 250", "infeasible", "says that there is no tour"),
        ("optimal 250", "table Cost row 3 field 4", "isn't a report of the word solve"),
        ("steps 17", "steps 18", "has no tour, or not all of its steps"),
        ("\tHigh Street, block 2", "\tLow Street", "line 5 is of another table"),
        ("13-\tMill", "13+\tMill", "line 21 is of another table"),
        ("1+\tHigh", "99+\tHigh", "line 5 is no step of this table"),
    ],
)
def test_a_report_that_was_changed_is_refused(tmp_path: Path, old: str, new: str, message: str) -> None:
    report = tmp_path / "report.txt"
    report.write_text(REPORT.read_text(encoding="utf-8").replace(old, new, 1), encoding="utf-8")
    with pytest.raises(Exception, match=message):
        read_tour(report, read_table(TABLE))


def test_steps_that_do_not_join_are_refused(tmp_path: Path) -> None:
    lines = REPORT.read_text(encoding="utf-8").splitlines()
    lines[4], lines[5] = lines[5], lines[4]
    report = tmp_path / "report.txt"
    report.write_text("\n".join(lines) + "\n", encoding="utf-8")
    assert "step 1 begins at" in refused(tmp_path / "tour.svg", TABLE, report)


def test_other_faults_are_told(tmp_path: Path) -> None:
    assert "ends in none of" in refused(tmp_path / "tour.pdf", TABLE, REPORT)
    assert "needs the places" in refused(tmp_path / "tour.gpx", TABLE, REPORT)
    empty = tmp_path / "empty.csv"
    empty.write_text("street,from,to,forward,backward,need\n")
    none = tmp_path / "none.txt"
    none.write_text(NO_STEPS.format(0, 0))
    assert "no street to draw" in refused(tmp_path / "tour.svg", empty, none)
    assert "isn't a street table" in refused(tmp_path / "tour.svg", REPORT, REPORT)
    assert "can't be read as a report" in refused(tmp_path / "tour.svg", TABLE, tmp_path / "none")
    assert "isn't a GeoJSON file" in refused(tmp_path / "tour.svg", TABLE, REPORT, TABLE)
    assert "can't be written" in refused(tmp_path / "none" / "tour.svg", TABLE, REPORT, PLACES)
