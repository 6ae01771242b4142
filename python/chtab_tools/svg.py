"""Draws a road network, routes, what is reached within a time, and how far the nearest place is, as
SVG."""
from __future__ import annotations

import collections
import html
import math
import textwrap
from collections.abc import Iterable, Iterator, Mapping, Sequence
from typing import IO, TypeAlias

from chtab import files

ROUTES = ("#c51b5b", "#1f6fb4", "#e08214", "#2a8f4f", "#7b3fa0", "#8c5a2b", "#0f9aa7", "#555555")
NEAR_TO_FAR = ((68, 1, 84), (59, 82, 139), (33, 145, 140), (120, 198, 80), (250, 170, 40))
# Units of the drawing for each pixel, the margin in pixels, and a letter's width as a part of its
# height.
FINE, MARGIN, LETTER = 4, 16, 0.6
# The width of a route in pixels, how much wider each route below others is drawn, and the number of
# widths.
WIDE, WIDER, WIDTHS = 3, 3, 5


# A point of the drawing; colours and texts of the legend; and shapes with their legend.
At: TypeAlias = tuple[int, int]
Segment: TypeAlias = frozenset[At]
Legend: TypeAlias = list[tuple[str, str]]
Drawing: TypeAlias = tuple[list[str], Legend]


class Network:
    """The graph's arcs and unit, and the places of its nodes in a drawing whose longer side has
    `size` pixels."""

    def __init__(self, graph: files.Graph, coordinates: files.Coordinates, size: float) -> None:
        self.graph = graph
        self.notes = (
            "© OpenStreetMap contributors, ODbL"
            if any("OpenStreetMap" in line for line in coordinates.comments) else "")
        self.unit, self.share = files.UNITS.get(graph.unit, ("", 1))
        self.project(coordinates, size)

    def project(self, coordinates: files.Coordinates, size: float) -> None:
        """Longitude and latitude at one scale, true in the middle of the map."""
        places = {node: coordinates.of(node) for node in coordinates.known()}
        west, east, south, north = (
            end(axis) for axis in zip(*places.values()) for end in (min, max))
        narrow = math.cos(math.radians((south + north) / 2))
        side = max((east - west) * narrow, north - south, 1e-9)
        scale = size / side
        self.metres = side / size * 111_195
        self.width, self.height = (east - west) * narrow * scale, (north - south) * scale
        self.places = {
            node: (
                round(((x - west) * narrow * scale + MARGIN) * FINE),
                round(((north - y) * scale + MARGIN) * FINE)) for node, (x, y) in places.items()}

    def at(self, node: int) -> At:
        """The place of a node."""
        if node not in self.places:
            raise files.FileFault(f"the coordinate file has no node {node}")
        return self.places[node]

    def weight_text(self, weight: float) -> str:
        return f"{weight / self.share:.1f} {self.unit}" if self.unit else str(weight)


def path(segments: Iterable[tuple[At, ...]]) -> str:
    """The segments as the text of an SVG path: each once, joined to lines that are as long as
    possible."""
    left: dict[At, set[At]] = {}
    for a, b in segments:
        if a != b:
            left.setdefault(a, set()).add(b)
            left.setdefault(b, set()).add(a)
    parts = []
    for start in sorted(left, key=lambda at: len(left[at]) != 1):
        while left[start]:
            x, y = here = start
            words = [f"M{x} {y}l"]
            while left[here]:
                there = min(left[here])
                left[here].discard(there)
                left[there].discard(here)
                words.append(f"{there[0] - here[0]} {there[1] - here[1]}")
                here = there
            parts.append(words[0] + " ".join(words[1:]).replace(" -", "-"))
    return "".join(parts)


def stroke(segments: Iterable[tuple[At, ...]], colour: str, pixels: float) -> str:
    return f'<path d="{path(segments)}" stroke="{colour}" stroke-width="{pixels * FINE:g}"/>'


def circle(at: At, colour: str, fill: str) -> str:
    place, stroke = f'cx="{at[0]}" cy="{at[1]}"', f'stroke="{colour}" stroke-width="{2 * FINE}"'
    return f'<circle {place} r="{5 * FINE}" fill="{fill}" {stroke}/>'


def roads(network: Network) -> list[str]:
    graph = network.graph
    return [
        stroke(
            ((network.at(a), network.at(b)) for a, b in zip(graph.tails, graph.heads)), "#a3a39b",
            0.9)]


def segments_of(line: Sequence[At]) -> set[Segment]:
    """The segments of a line, each as a set of its ends."""
    return {frozenset(ends) for ends in zip(line, line[1:])}


def by_width(
    line: Sequence[At], left: collections.Counter[Segment],
) -> list[tuple[int, list[tuple[At, ...]]]]:
    """The segments of a route's line, by how many later routes share them. `left` counts the routes
    that are not drawn yet."""
    parts: dict[int, list[tuple[At, ...]]] = collections.defaultdict(list)
    for segment in segments_of(line):
        left[segment] -= 1
        if len(segment) == 2:
            parts[left[segment]].append(tuple(sorted(segment)))
    return sorted(parts.items(), reverse=True)


def draw_routes(
    network: Network, routes: Sequence[files.Answer], names: Mapping[int, str],
) -> Drawing:
    """The shapes, and the lines of the legend: (colour, text). Where routes share a road, later
    ones are drawn thin over wide ones."""
    shapes, marks, legend = roads(network), [], []
    lines = [[network.at(node) for node in route.nodes or ()] for route in routes]
    left = collections.Counter(segment for line in lines for segment in segments_of(line))
    shared = dict(left)
    for place, (route, line) in enumerate(zip(routes, lines)):
        colour = ROUTES[place % len(ROUTES)]
        for later, segments in by_width(line, left):
            width = WIDE + WIDER * min(later, WIDTHS - 1)
            under = [segment for segment in segments if shared[frozenset(segment)] - later == 1]
            shapes += [stroke(under, "#ffffff", width + 2)] if under else []
            shapes.append(stroke(segments, colour, width))
        marks += [circle(line[0], colour, "#ffffff"), circle(line[-1], colour, colour)]
        start, end = (names.get(node, str(node)) for node in (route.source, route.target))
        legend.append((colour, f"{start} to {end}: {network.weight_text(route.weight or 0)}"))
    return shapes + marks, legend


def banded(
    network: Network, graph: files.Graph, times: Mapping[int, float], borders: Sequence[float],
) -> list[list[tuple[At, ...]]]:
    """For each band the pieces of a graph's arcs that are reached within it. Band k is between
    borders[k] and borders[k + 1]."""
    bands: list[list[tuple[At, ...]]] = [[] for _ in borders[1:]]
    for start, end, weight in zip(graph.tails, graph.heads, graph.weights):
        if start not in times:
            continue
        (x, y), (u, v), first = network.at(start), network.at(end), times[start]
        for band, low, high in zip(bands, borders, borders[1:]):
            enters, leaves = (
                (min(max(time - first, 0), weight) / weight if weight else 0)
                for time in (low, high))
            if weight == 0 and low <= first <= high:
                leaves = 1
            if enters < leaves:
                band.append(
                    tuple(
                        (round(x + (u - x) * part), round(y + (v - y) * part))
                        for part in (enters, leaves)))
    return bands


def colour_of(place: int, count: int) -> str:
    """The colour of a band, of `count` bands."""
    part = place / max(1, count - 1) * (len(NEAR_TO_FAR) - 1)
    low, high = NEAR_TO_FAR[math.floor(part)], NEAR_TO_FAR[math.ceil(part)]
    return "#" + "".join(f"{round(a + (b - a) * (part % 1)):02x}" for a, b in zip(low, high))


def draw_bands(
    network: Network, graph: files.Graph, times: Mapping[int, float], limit: float | None,
    count: int,
) -> Drawing:
    """Roads in bands by the `times` of nodes, {node: weight}, up to the limit (None: the greatest).
    Along an arc of the graph the time grows."""
    limit = max(times.values(), default=0) if limit is None else limit
    borders = [limit * place / count for place in range(count + 1)]
    times = {node: time for node, time in times.items() if time <= limit}
    shapes = roads(network)
    legend: Legend = []
    for place, band in reversed(list(enumerate(banded(network, graph, times, borders)))):
        shapes.append(stroke(band, colour_of(place, count), 1.6))
        reached = f"up to {network.weight_text(borders[place + 1])}"
        legend.insert(0, (colour_of(place, count), reached))
    return shapes, [*legend, ("#a3a39b", "not reached")]


def draw_reach(
    network: Network, source: int, times: Mapping[int, float], limit: float | None, count: int,
    names: Mapping[int, str],
) -> Drawing:
    """What is reached from the source, whose `times` are {node: weight}, in bands up to the limit
    (None: the farthest)."""
    shapes, legend = draw_bands(network, network.graph, times, limit, count)
    if source in names:
        legend.insert(0, ("#000000", f"from {names[source]}"))
    return [*shapes, circle(network.at(source), "#000000", "#ffffff")], legend


def draw_near(
    network: Network, nearest: Mapping[int, tuple[int, int]], limit: float | None, count: int,
    is_from: bool,
) -> Drawing:
    """How far the nearest target is, in bands up to the limit (None: the farthest). `nearest` is
    {node: (target, weight)}, the weights those to the target or from it."""
    graph = (
        network.graph if is_from
        else network.graph._replace(tails=network.graph.heads, heads=network.graph.tails))
    shapes, legend = draw_bands(
        network, graph, {node: weight for node, (_, weight) in nearest.items()}, limit, count)
    legend.insert(0, ("#000000", f"{'from' if is_from else 'to'} the nearest place"))
    return (
        [
            *shapes,
            *(
                circle(network.at(target), "#000000", "#ffffff")
                for target in sorted({target for target, _ in nearest.values()}))], legend)


def text(x: float, y: float, words: str, size: int = 13) -> str:
    place = f'x="{x * FINE:.0f}" y="{y * FINE:.0f}"'
    return f'<text {place} font-size="{size * FINE}">{html.escape(words)}</text>'


def title_lines(title: str, pixels: float, size: int) -> list[str]:
    """The title, broken into lines that fit into a width in pixels."""
    return textwrap.wrap(title, max(1, int(pixels / (size * LETTER))))


def scale_bar(network: Network, left: float, bottom: float) -> list[str]:
    """A bar of round length, with its length above."""
    longest = 120 * network.metres
    bar = max(
        step * 10**power for power in range(8) for step in (1, 2, 5)
        if step * 10**power <= max(longest, 1))
    end = left + bar / network.metres
    return [
        f'<path d="M{left * FINE:.0f} {bottom * FINE:.0f}H{end * FINE:.0f}" stroke="#222222" '
        f'stroke-width="{2 * FINE}"/>',
        text(left, bottom - 6, f"{bar / 1000:g} km" if bar >= 1000 else f"{bar} m", 12)]


def legend_lines(legend: Legend, left: float, top: float) -> Iterator[str]:
    for place, (colour, words) in enumerate(legend):
        y = top + 20 * place
        line = f'x1="{left * FINE:.0f}" x2="{(left + 22) * FINE:.0f}"'
        line += f' y1="{(y - 4) * FINE}" y2="{(y - 4) * FINE}"'
        yield f'<line {line} stroke="{colour}" stroke-width="{4 * FINE}"/>'
        yield text(left + 30, y, words)


def write(
    network: Network, title: str, shapes: Sequence[str], legend: Legend, out: IO[str],
) -> None:
    """Writes the whole picture: the title above, the map on the left, and the legend, as wide as
    its words, on the right."""
    longest = max((len(words) for _, words in legend), default=0)
    legend_width = max(215, round(30 + 13 * LETTER * longest + MARGIN))
    left, width = network.width + 2 * MARGIN, network.width + 2 * MARGIN + legend_width
    titles = title_lines(title, width - 2 * MARGIN, 17)
    head = 26 * len(titles) + (8 if titles else 0)
    height = head + max(network.height, 20 * len(legend) + 100, 240) + 2 * MARGIN
    print(
        f'<svg xmlns="http://www.w3.org/2000/svg" width="{width:.0f}" height="{height:.0f}"',
        end=" ", file=out)
    print(
        f'viewBox="0 0 {width * FINE:.0f} {height * FINE:.0f}" font-family="sans-serif" '
        'fill="#222222">', file=out)
    print('<rect width="100%" height="100%" fill="#fbfbf8"/>', file=out)
    for place, line in enumerate(titles):
        print(text(MARGIN, MARGIN + 17 + 26 * place, line, 17), file=out)
    shift = f' transform="translate(0 {head * FINE})"' if head else ""
    print(
        f'<g fill="none" stroke-linecap="round" stroke-linejoin="round"{shift}>', *shapes, "</g>",
        sep="\n", file=out)
    bottom = height - MARGIN
    print(
        *legend_lines(legend, left, head + MARGIN + 14), *scale_bar(network, left, bottom - 22),
        sep="\n", file=out)
    print(text(left, bottom, network.notes, 10), "</svg>", sep="\n", file=out)
