"""Reads the report of a search, and checks it against the table that it should belong to."""

import re
from dataclasses import dataclass
from pathlib import Path

from town import Street, Trouble, junctions_of

END = re.compile(r"optimal (\d+)|unfinished (\d+) (\d+)")
SIZES = re.compile(r"streets (\d+) junctions (\d+) .*")
STEP = re.compile(r"(\d+)([+-])")
WAYS_TO_SERVE = {"no": [], "yes": ["either"], "forward": ["ahead"], "backward": ["back"], "both": ["ahead", "back"]}


@dataclass(frozen=True)
class Step:
    """A street of the table, driven from its first end or back. It serves, or the way is only passed (a deadhead)."""

    street: int
    ahead: bool
    cost: int
    serves: bool


@dataclass(frozen=True)
class Tour:
    """The tour of a report. None costs less than `low`."""

    low: int
    cost: int
    steps: list[Step]

    def deadhead(self) -> float:
        """The share of the cost that serves nothing, in percent."""
        passed = sum(step.cost for step in self.steps if not step.serves)
        return 100 * passed / self.cost if self.cost else 0.0


def read_tour(path: Path, streets: list[Street]) -> Tour:
    try:
        lines = path.read_text(encoding="utf-8").removesuffix("\n").split("\n")
    except (OSError, UnicodeDecodeError) as error:
        raise Trouble(f"{path} can't be read as a report: {error}") from error
    if lines[0] == "infeasible":
        raise Trouble(f"{path} says that there is no tour")
    end = END.fullmatch(lines[0])
    if not end:
        raise Trouble(f"{path} isn't a report of the word solve: its first line is '{lines[0]}'")
    low, cost = int(end[1] or end[2]), int(end[1] or end[3])
    check_sizes(path, lines, streets)
    driven = [driven_at(lines[row], f"{path} line {row + 1}", streets) for row in range(4, len(lines))]
    check_walk(path, driven, streets)
    if sum(cost_of(streets[street], ahead) for street, ahead in driven) != cost:
        raise Trouble(f"{path} is the report of another table: by this one its steps don't cost {cost}")
    return Tour(low, cost, steps_of(driven, streets))


def check_sizes(path: Path, lines: list[str], streets: list[Street]) -> None:
    if len(lines) < 4 or lines[3] != f"steps {len(lines) - 4}":
        raise Trouble(f"{path} has no tour, or not all of its steps")
    sizes = SIZES.fullmatch(lines[1])
    here = str(len(streets)), str(len(junctions_of(streets)))
    if not sizes or sizes.groups() != here:
        raise Trouble(f"{path} is the report of another table: it has '{lines[1]}', "
                      f"and this one streets {here[0]} junctions {here[1]}")  # fmt: skip


def driven_at(line: str, where: str, streets: list[Street]) -> tuple[int, bool]:
    """The street of a step, and whether it is driven ahead; the line has to say what the table says of it."""
    word, *rest = line.split("\t")
    step = STEP.fullmatch(word)
    if not step or int(step[1]) >= len(streets):
        raise Trouble(f"{where} is no step of this table: '{line}'")
    street, ahead = streets[int(step[1])], step[2] == "+"
    start, end = ends_of(street, ahead)
    wanted = [street.name, start, end, str(cost_of(street, ahead))]
    if rest != wanted:
        raise Trouble(f"{where} is of another table: it has {', '.join(rest)}, and this one {', '.join(wanted)}")
    return int(step[1]), ahead


def ends_of(street: Street, ahead: bool) -> tuple[str, str]:
    """Where a step along the street begins, and where it ends."""
    return (street.start, street.end) if ahead else (street.end, street.start)


def cost_of(street: Street, ahead: bool) -> int:
    cost = street.forward if ahead else street.backward
    return -1 if cost is None else cost


def check_walk(path: Path, driven: list[tuple[int, bool]], streets: list[Street]) -> None:
    """Each step begins where the one before ends, and the first where the last one ends."""
    ends = [ends_of(streets[street], ahead) for street, ahead in driven]
    for number, (before, after) in enumerate(zip(ends[-1:] + ends, ends), start=1):
        if before[1] != after[0]:
            raise Trouble(f"{path} has no tour: step {number} begins at {after[0]}, the one before ends at {before[1]}")


def steps_of(driven: list[tuple[int, bool]], streets: list[Street]) -> list[Step]:
    """The steps of the tour. A need is served by the first pass that can serve it."""
    waiting = {(number, way) for number, street in enumerate(streets) for way in WAYS_TO_SERVE[street.need]}
    steps = []
    for street, ahead in driven:
        served = {(street, "either"), (street, "ahead" if ahead else "back")} & waiting
        waiting -= served
        steps.append(Step(street, ahead, cost_of(streets[street], ahead), bool(served)))
    return steps
