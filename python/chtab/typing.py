"""The types of arguments and results, as in `from chtab.typing import Integers`; needs numpy."""
import os
from collections.abc import Iterable, Mapping
from typing import IO, Any, Literal, TypeAlias

import numpy
from numpy.typing import ArrayLike, NDArray


# Columns as callers give them: arrays, lists, and columns of frames.
Column: TypeAlias = ArrayLike
# Labels of nodes as callers give them: integers, strings or tuples, one or many.
Labels: TypeAlias = ArrayLike
# Labels in answers: int64, or objects that are all `int`, all `str` or all tuples.
LabelArray: TypeAlias = NDArray[Any]
Integers: TypeAlias = NDArray[numpy.int64]
Floats: TypeAlias = NDArray[numpy.float64]
Marks: TypeAlias = NDArray[numpy.bool_]
# Weights in answers: whole numbers of the graph, or floats in the caller's unit.
Weights: TypeAlias = NDArray[Any]
# A path; a file to read, as a path, open or as lines; a file to write, as a path or open.
Path: TypeAlias = str | os.PathLike[str]
Source: TypeAlias = Path | IO[Any] | Iterable[Any]
Target: TypeAlias = Path | IO[Any]
# A collection or a feature of GeoJSON (RFC 7946).
Geojson: TypeAlias = dict[str, Any]
# Values of nodes: a column, a value for each label, or one for all.
Values: TypeAlias = ArrayLike | Mapping[Any, float]
# Longitude and latitude in degrees.
Point: TypeAlias = tuple[float, float]
# Whether weights are those from sources to targets, or from targets to sources.
Direction: TypeAlias = Literal["to", "from"]

