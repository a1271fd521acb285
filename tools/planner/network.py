"""Cuts ways into streets between junctions, keeps those that can be reached and left, and names them."""

import math
from collections import Counter, defaultdict
from collections.abc import Iterable, Iterator
from dataclasses import dataclass, replace
from itertools import count
from typing import Optional

import networkx

from heights import Heights
from town import NAME_BYTES, Places, Point, Street, Trouble
from ways import Map, Way

EARTH_RADIUS = 6371008.8
UPHILL = 5.0
"""A rise of one in a hundred adds five in a hundred to the cost."""


@dataclass(frozen=True)
class Piece:
    """A street between two junctions, in the direction of its nodes. A cost is None where it may not be driven."""

    title: str
    need: bool
    nodes: tuple[int, ...]
    metres: float
    forward: Optional[float]
    backward: Optional[float]
    name: str = ""

    @property
    def start(self) -> int:
        return self.nodes[0]

    @property
    def end(self) -> int:
        return self.nodes[-1]

    def turned(self) -> "Piece":
        return replace(self, nodes=self.nodes[::-1], forward=self.backward, backward=self.forward)


@dataclass(frozen=True)
class Costs:
    """How a cost is reckoned: in metres or seconds, and with which heights."""

    metres: bool
    height: Heights


def metres_between(first: Point, second: Point) -> float:
    """The haversine distance."""
    west, south, east, north = map(math.radians, (*first, *second))
    half = math.sin((north - south) / 2) ** 2
    half += math.cos(south) * math.cos(north) * math.sin((east - west) / 2) ** 2
    return 2 * EARTH_RADIUS * math.asin(math.sqrt(half))


def pieces_of(plan: Map, need: set[str], costs: Costs) -> list[Piece]:
    """The ways, cut where they meet each other or themselves."""
    meetings = Counter(node for way in plan.ways for node in way.nodes)
    meetings.update(node for way in plan.ways for node in (way.nodes[0], way.nodes[-1]))
    return [
        piece_of(way, nodes, way.highway in need, plan.points, costs)
        for way in plan.ways
        for nodes in cuts(way.nodes, {node for node in way.nodes if meetings[node] > 1})
    ]


def cuts(nodes: tuple[int, ...], junctions: set[int]) -> Iterator[tuple[int, ...]]:
    first = 0
    for last in range(1, len(nodes)):
        if nodes[last] in junctions:
            yield nodes[first : last + 1]
            first = last


def piece_of(way: Way, nodes: tuple[int, ...], need: bool, points: dict[int, Point], costs: Costs) -> Piece:
    places = [points[node] for node in nodes]
    legs = list(zip(places, places[1:]))
    return Piece(
        way.title,
        need,
        nodes,
        sum(metres_between(*leg) for leg in legs),
        cost_of(legs, way.forward, costs),
        cost_of([leg[::-1] for leg in reversed(legs)], way.backward, costs),
    )


def cost_of(legs: list[tuple[Point, Point]], speed: Optional[float], costs: Costs) -> Optional[float]:
    if speed is None:
        return None
    effort = sum(metres_between(*leg) + UPHILL * max(0.0, costs.height(leg[1]) - costs.height(leg[0])) for leg in legs)
    return effort if costs.metres else effort / speed


def arcs_of(pieces: Iterable[Piece]) -> networkx.MultiDiGraph:
    """The legal directions, each with its cost and its piece."""
    graph = networkx.MultiDiGraph()
    for piece in pieces:
        graph.add_nodes_from((piece.start, piece.end))
        if piece.forward is not None:
            graph.add_edge(piece.start, piece.end, cost=piece.forward, piece=piece)
        if piece.backward is not None:
            graph.add_edge(piece.end, piece.start, cost=piece.backward, piece=piece)
    return graph


def reachable(pieces: list[Piece]) -> list[Piece]:
    """The pieces between junctions that can all be reached from each other, where most is to be served."""
    length: defaultdict[int, float] = defaultdict(float)
    components = [frozenset(each) for each in networkx.strongly_connected_components(arcs_of(pieces))]
    number = {node: index for index, component in enumerate(components) for node in component}
    inside = [piece for piece in pieces if number[piece.start] == number[piece.end]]
    for piece in inside:
        length[number[piece.start]] += piece.metres if piece.need else 0.0
    if not any(length.values()):
        raise Trouble("no street that is to be served can be reached and left")
    best = max(length, key=lambda index: (length[index], -min(components[index])))
    return [piece for piece in inside if number[piece.start] == best]


def joined(pieces: list[Piece]) -> list[Piece]:
    """Two pieces become one where nothing else meets them and they differ in nothing but their place."""
    graph = networkx.MultiGraph()
    for order, piece in enumerate(pieces):
        graph.add_edge(piece.start, piece.end, key=order, piece=piece)
    for node in list(graph):
        meeting = sorted(graph.edges(node, keys=True, data="piece"), key=lambda edge: edge[2])
        if graph.degree(node) == 2 and len(meeting) == 2:
            (_, _, order, first), (_, _, _, second) = meeting
            whole = chain(first, second, node)
            if whole is not None:
                graph.remove_node(node)
                graph.add_edge(whole.start, whole.end, key=order, piece=whole)
    edges = sorted(graph.edges(keys=True, data="piece"), key=lambda edge: edge[2])
    return [piece for _, _, _, piece in edges]


def chain(first: Piece, second: Piece, node: int) -> Optional[Piece]:
    """Both pieces as one through the node, in the direction of the first; None where they differ."""
    if first.start == node:
        first, second = second, first
    first = first if first.end == node else first.turned()
    second = second if second.start == node else second.turned()
    if kind_of(first) != kind_of(second):
        return None
    return replace(
        first,
        nodes=first.nodes + second.nodes[1:],
        metres=first.metres + second.metres,
        forward=total(first.forward, second.forward),
        backward=total(first.backward, second.backward),
    )


def total(first: Optional[float], second: Optional[float]) -> Optional[float]:
    return None if first is None or second is None else first + second


def kind_of(piece: Piece) -> tuple[str, bool, bool, bool]:
    return piece.title, piece.need, piece.forward is None, piece.backward is None


class Names:
    """Gives each street or junction a name of its own that a table may hold."""

    def __init__(self) -> None:
        self.taken: set[str] = set()

    def new(self, title: str, ending: str = "") -> str:
        for number in count(1):
            last = ending if number == 1 else f"{ending} ({number})"
            name = fitted(title, NAME_BYTES - len(last.encode())) + last
            if name not in self.taken:
                self.taken.add(name)
                return name
        raise AssertionError("numbers don't end")


def fitted(title: str, room: int) -> str:
    """The title, cut to so many bytes where it is longer."""
    spelled = title.encode()
    if len(spelled) <= room:
        return title
    return spelled[: room - len("…".encode())].decode(errors="ignore").rstrip() + "…"


def too_long(pieces: Iterable[Piece]) -> list[str]:
    """The names in the map that no table may hold."""
    return sorted({piece.title for piece in pieces if len(piece.title.encode()) > NAME_BYTES})


def named(pieces: list[Piece]) -> list[Piece]:
    """Each piece with the map's name for it, and the number of its block where a street has several."""
    blocks = Counter(piece.title for piece in pieces)
    seen: Counter[str] = Counter()
    names = Names()
    result = []
    for piece in pieces:
        seen[piece.title] += 1
        ending = f", block {seen[piece.title]}" if blocks[piece.title] > 1 else ""
        result.append(replace(piece, name=names.new(piece.title, ending)))
    return result


def junction_names(pieces: list[Piece]) -> dict[int, str]:
    """Each junction is called by the streets that meet there."""
    meeting: defaultdict[int, list[str]] = defaultdict(list)
    for piece in pieces:
        meeting[piece.start].append(piece.title)
        meeting[piece.end].append(piece.title)
    names = Names()
    return {node: junction_name(titles, names) for node, titles in meeting.items()}


def junction_name(titles: list[str], names: Names) -> str:
    shown = sorted(set(titles))[:3]
    if len(shown) == 1:
        return names.new(shown[0], ", end" if len(titles) == 1 else ", fork")
    room = (NAME_BYTES - len(" & ") * (len(shown) - 1)) // len(shown)
    return names.new(" & ".join(fitted(title, room) for title in shown))


@dataclass(frozen=True)
class Network:
    """A whole town or a part of one, with the names and places of its junctions."""

    pieces: list[Piece]
    junctions: dict[int, str]
    points: dict[int, Point]

    def streets(self) -> list[Street]:
        return [self.street(piece) for piece in self.pieces]

    def street(self, piece: Piece) -> Street:
        start, end = self.junctions[piece.start], self.junctions[piece.end]
        need = "yes" if piece.need else "no"
        return Street(piece.name, start, end, whole(piece.forward), whole(piece.backward), need)

    def places(self) -> Places:
        places = Places()
        for piece in self.pieces:
            for node in (piece.start, piece.end):
                places.junctions[self.junctions[node]] = self.points[node]
            key = self.street(piece).key()
            places.lines[key] = [self.points[node] for node in piece.nodes]
            places.titles[key] = piece.title
        return places


def whole(cost: Optional[float]) -> Optional[int]:
    return None if cost is None else max(1, round(cost))


def network_of(pieces: list[Piece], points: dict[int, Point]) -> Network:
    """A network of pieces that can all be reached."""
    streets = named(joined(pieces))
    return Network(streets, junction_names(streets), points)
