"""Answers as GeoJSON (RFC 7946), with their properties."""
from __future__ import annotations

import itertools
import json
from collections.abc import Iterable, Mapping, Sequence
from typing import TYPE_CHECKING, Any

from chtab import files

if TYPE_CHECKING:
    from chtab.typing import Geojson, Point


def feature(
    line: Sequence[Any] | None, properties: Mapping[str, Any], kind: str = "LineString",
) -> Geojson:
    """A feature, None for no geometry. A line of one point has it twice, as lines need two."""
    if kind == "LineString" and line is not None and len(line) == 1:
        line = [*line, *line]
    geometry = line and {"type": kind, "coordinates": line}
    return {"type": "Feature", "properties": properties, "geometry": geometry}


def line_text(line: Sequence[Point] | None, properties: Mapping[str, Any]) -> str:
    """The text of a feature with its line in millionths of a degree, quicker than by `json`."""
    if not line:
        return json.dumps(feature(None, properties))
    if len(line) == 1:
        line = [*line, *line]
    places = ("[%.6f,%.6f]," * len(line))[:-1] % tuple(itertools.chain.from_iterable(line))
    head = f'{{"type": "Feature", "properties": {json.dumps(properties)}, "geometry": '
    return f'{head}{{"type": "LineString", "coordinates": [{places}]}}}}'


def collection(features: Iterable[Geojson]) -> Geojson:
    return {"type": "FeatureCollection", "features": list(features)}


def query_feature(
    query: int, answer: files.Answer, line: Sequence[Point] | None, names: Mapping[Any, str],
) -> Geojson:
    """The answer to a query along a line of places; None if no path leads there."""
    source, target, arcs = answer.source, answer.target, answer.nodes and len(answer.nodes) - 1
    ends = {"source": source, "target": target, "from": source, "to": target}
    properties = {"query": query, **ends, "weight": answer.weight, "arcs": arcs}
    return feature(line, named(properties, answer, names))


def named(
    properties: dict[str, Any], answer: files.Answer, names: Mapping[Any, str],
) -> dict[str, Any]:
    """Properties, together with the names of the first and last node if they have names."""
    ends = ("from_name", answer.source), ("to_name", answer.target)
    return {**properties, **{key: names[node] for key, node in ends if names.get(node)}}
