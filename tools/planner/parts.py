"""Cuts a town that is too large for the program into parts that fit, each of which has tours of its own."""

from collections.abc import Iterator
from dataclasses import replace
from itertools import pairwise

import networkx

from network import Network, Piece, arcs_of
from town import MOST_DEMANDS, MOST_JUNCTIONS, MOST_STREETS, Trouble
from ways import Box


def sizes(network: Network) -> tuple[int, int, int]:
    """The numbers of junctions, streets and demands."""
    nodes = {node for piece in network.pieces for node in (piece.start, piece.end)}
    return len(nodes), len(network.pieces), sum(piece.need for piece in network.pieces)


def fits(network: Network) -> bool:
    return all(size <= most for size, most in zip(sizes(network), (MOST_JUNCTIONS, MOST_STREETS, MOST_DEMANDS)))


def parts(town: Network) -> list[Network]:
    """The town, or parts of it: each street that is to be served is so in exactly one of them."""
    if fits(town):
        return [town]
    return list(cut(town, arcs_of(town.pieces), [piece for piece in town.pieces if piece.need]))


def cut(town: Network, arcs: networkx.MultiDiGraph, served: list[Piece]) -> Iterator[Network]:
    part = part_around(town, arcs, served)
    if fits(part):
        yield part
    elif len(served) == 1:
        raise Trouble(f"the ways around {served[0].name} alone don't fit the program")
    else:
        for half in halves(town, served):
            yield from cut(town, arcs, half)


def halves(town: Network, served: list[Piece]) -> tuple[list[Piece], list[Piece]]:
    """Those on the one side and on the other, across the longer side of the box around them."""
    box = box_around(town, served)
    axis = 0 if box.east - box.west > box.north - box.south else 1
    ordered = sorted(served, key=lambda piece: town.points[piece.nodes[len(piece.nodes) // 2]][axis])
    middle = len(ordered) // 2
    return ordered[:middle], ordered[middle:]


def box_around(town: Network, pieces: list[Piece]) -> Box:
    points = [town.points[node] for piece in pieces for node in piece.nodes]
    west, south = (min(values) for values in zip(*points))
    east, north = (max(values) for values in zip(*points))
    return Box(west, south, east, north)


def part_around(town: Network, arcs: networkx.MultiDiGraph, served: list[Piece]) -> Network:
    """The served streets, all others in the box around them, and the shortest ways that join them where these don't."""
    box = box_around(town, served)
    needed = {piece.name for piece in served}
    hub = served[0].start
    ends = {node for piece in served for node in (piece.start, piece.end)}
    chosen = {piece.name for piece in town.pieces if all(box.holds(town.points[node]) for node in piece.nodes)}
    chosen |= on_ways(arcs, hub, ends) | on_ways(arcs.reverse(copy=False), hub, ends)
    around = [replace(piece, need=piece.name in needed) for piece in town.pieces if piece.name in chosen]
    component = networkx.strongly_connected_components(arcs_of(around))
    inside = next(nodes for nodes in component if hub in nodes)
    return replace(town, pieces=[piece for piece in around if piece.start in inside and piece.end in inside])


def on_ways(arcs: networkx.MultiDiGraph, hub: int, ends: set[int]) -> set[str]:
    """The names of the streets on shortest ways from the hub to all ends."""
    ways = networkx.single_source_dijkstra_path(arcs, hub, weight="cost")
    steps = {step for end in ends for step in pairwise(ways[end])}
    return {min(arcs[start][end].values(), key=lambda arc: arc["cost"])["piece"].name for start, end in steps}
