"""What the tests share."""

import subprocess
import sys
from pathlib import Path

TESTS = Path(__file__).resolve().parent
TOOLS = TESTS.parent
EXAMPLES = TOOLS.parent.parent / "examples"
EXAMPLE = EXAMPLES / "mill_quarter"
SMALL = TESTS / "small.osm"
NEED = "residential,living_street"

sys.path.insert(0, str(TOOLS))


def run_tool(name: str, *words: object) -> subprocess.CompletedProcess:
    command = [sys.executable, str(TOOLS / name), *map(str, words)]
    return subprocess.run(command, capture_output=True, encoding="utf-8", check=False)


def write_grid(path: Path, size: int) -> Path:
    """A map of size times size junctions in a grid, with streets along its rows and columns."""
    numbers = [[row * size + column + 1 for column in range(size)] for row in range(size)]
    nodes = [
        f'<node id="{number}" version="1" lat="{45 + 0.001 * row:.3f}" lon="{-30 + 0.0014 * column:.4f}"/>'
        for row, line in enumerate(numbers)
        for column, number in enumerate(line)
    ]
    ways = [
        f'<way id="{number}" version="1">' + "".join(f'<nd ref="{node}"/>' for node in line)
        + f'<tag k="highway" v="residential"/><tag k="name" v="Street {number}"/></way>'
        for number, line in enumerate(numbers + [list(column) for column in zip(*numbers)], start=1)
    ]  # fmt: skip
    path.write_text("\n".join(['<osm version="0.6">', *nodes, *ways, "</osm>"]))
    return path
