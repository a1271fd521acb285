"""Writes a tour as GeoJSON, and as GPX for a navigation device."""

from xml.etree import ElementTree

from layout import map_line, placed
from picture import title_of
from report import Step, Tour, ends_of
from town import Places, Point, Street, collection, feature
from turns import turns_of

GPX = {"version": "1.1", "creator": "Kuypasha", "xmlns": "http://www.topografix.com/GPX/1/1"}


def driven_points(street: Street, step: Step, places: Places) -> list[Point]:
    line = map_line(street, places)
    return line if step.ahead else line[::-1]


def geojson_of(streets: list[Street], tour: Tour, places: Places) -> str:
    """A line for each step, in order."""
    features = []
    for number, step in enumerate(tour.steps, start=1):
        street = streets[step.street]
        start, end = ends_of(street, step.ahead)
        properties = {"step": number, "street": street.name, "from": start, "to": end, "cost": step.cost}
        properties["serves"] = step.serves
        features.append(feature("LineString", driven_points(street, step, places), properties))
    return collection(features)


def gpx_of(streets: list[Street], tour: Tour, places: Places) -> str:
    """A route with a point at each turn, and the whole tour as a track."""
    root = ElementTree.Element("gpx", GPX)
    ElementTree.SubElement(ElementTree.SubElement(root, "metadata"), "name").text = title_of(tour)
    route = ElementTree.SubElement(root, "rte")
    ElementTree.SubElement(route, "name").text = "Turns"
    turns = turns_of(streets, tour, placed(streets, places), places)
    for before, turn, step in zip([None, *turns], turns, tour.steps):
        if before is None or turn.word != "straight on" or turn.street != before.street:
            first = driven_points(streets[step.street], step, places)[0]
            ElementTree.SubElement(point_in(route, "rtept", first), "name").text = turn.text()
    track = ElementTree.SubElement(root, "trk")
    ElementTree.SubElement(track, "name").text = "Tour"
    segment = ElementTree.SubElement(track, "trkseg")
    for step in tour.steps:
        points = driven_points(streets[step.street], step, places)
        for point in points if step is tour.steps[0] else points[1:]:
            point_in(segment, "trkpt", point)
    ElementTree.indent(root)
    return ElementTree.tostring(root, encoding="unicode", xml_declaration=True) + "\n"


def point_in(parent: ElementTree.Element, kind: str, point: Point) -> ElementTree.Element:
    return ElementTree.SubElement(parent, kind, {"lat": f"{point[1]:.7f}", "lon": f"{point[0]:.7f}"})
