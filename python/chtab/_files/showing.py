"""Shows answers on maps by matplotlib or folium, and as tables in notebooks."""
from __future__ import annotations

import html
from collections.abc import Iterable, Mapping, Sequence
from typing import TYPE_CHECKING, Any

import numpy

if TYPE_CHECKING:
    import folium
    import geopandas
    import matplotlib.axes
    import pandas
    from chtab.typing import Floats, Geojson

# Rows of a table in a notebook.
SHOWN = 10
COLOURS = "viridis"
DEGREES = "EPSG:4326"


class OnMap:
    """An answer to show on a map: features by `to_geojson`, coloured by the property `shown_by`."""

    shown_by = ""
    # Whether `to_frame` has a row for each feature.
    _is_framed = False

    if TYPE_CHECKING:
        def to_geojson(self) -> Geojson:
            """The features of the answer."""

        def to_frame(self) -> pandas.DataFrame:
            """The answers in rows."""

    @property
    def __geo_interface__(self) -> dict:
        return self.to_geojson()

    def to_geodataframe(self) -> geopandas.GeoDataFrame:
        """Returns the answers as a GeoDataFrame.

        Returns
        -------
        geopandas.GeoDataFrame
            A row for each answer: what `to_frame` has of it, or else the properties of its feature;
            and its shape in degrees (EPSG:4326), None where no path leads.

        Raises
        ------
        ImportError, ChtabError
            geopandas is not installed; or the network has no places of nodes.
        """
        found = geodataframe(self.to_geojson())
        if self._is_framed:
            return with_geometry(self.to_frame(), found.geometry.to_list())
        return found

    def plot(self, ax: matplotlib.axes.Axes | None = None, **style: Any) -> matplotlib.axes.Axes:
        """Draws the features by matplotlib, coloured by their weights or limits.

        Parameters
        ----------
        ax : matplotlib.axes.Axes, optional
            The axes to draw in; by default those of a new figure.
        **style
            Arguments of the collections of matplotlib, such as `linewidth`, `cmap` or `alpha`.

        Returns
        -------
        matplotlib.axes.Axes
            The axes, in longitudes and latitudes. Features without a geometry are not drawn.

        Raises
        ------
        ImportError, ChtabError
            matplotlib is not installed; or the network has no places of nodes.
        """
        features = [each for each in self.to_geojson()["features"] if each["geometry"]]
        return drawn(features, self.shown_by, ax, style)

    def explore(self, **style: Any) -> folium.Map:
        """Shows the features on an interactive map, by folium.

        Parameters
        ----------
        **style
            Options of the lines and polygons of Leaflet, such as `weight`, `color` or
            `fillOpacity`.

        Returns
        -------
        folium.Map
            The map, whose background tiles a browser loads from OpenStreetMap. Features without a
            geometry are not shown.

        Raises
        ------
        ImportError, ChtabError
            folium is not installed; or the network has no places of nodes.
        """
        features = [each for each in self.to_geojson()["features"] if each["geometry"]]
        return explored(features, self.shown_by, style)

    def _repr_html_(self) -> str:
        return table_text(repr(self), [each["properties"] for each in self._shown(SHOWN)])

    def _shown(self, count: int) -> list:
        """The first features."""
        return self.to_geojson()["features"][:count]


def table_text(title: str, rows: list[dict]) -> str:
    """The HTML of a table of rows with the same keys. Their values are escaped."""
    def row_of(tag: str, values: Iterable[Any]) -> str:
        cells = (f"<{tag}>{html.escape(str(value))}</{tag}>" for value in values)
        return f"<tr>{''.join(cells)}</tr>"

    head = row_of("th", rows[0] if rows else ())
    body = "".join(row_of("td", row.values()) for row in rows)
    table = f"<table><thead>{head}</thead><tbody>{body}</tbody></table>"
    return f"<p>{html.escape(title)}</p>{table}"


def table_of(title: str, **columns: Iterable[Any]) -> str:
    """The same of columns."""
    return table_text(title, [dict(zip(columns, row)) for row in zip(*columns.values())])


def values_of(features: Sequence[Geojson], name: str) -> Floats:
    """The numbers that colour features."""
    return numpy.array([each["properties"].get(name) for each in features], float)


def drawn(features: Sequence[Geojson], name: str, ax: Any, style: Mapping[str, Any]) -> Any:
    """Draws features by matplotlib: a collection each for points, lines and polygons."""
    from matplotlib import pyplot

    if ax is None:
        ax = pyplot.figure().add_subplot()
    values = values_of(features, name)
    drawers = {"Point": draw_points, "LineString": draw_lines, "MultiPolygon": draw_polygons}
    for kind, draw in drawers.items():
        which = [place for place, each in enumerate(features) if each["geometry"]["type"] == kind]
        shapes = [features[place]["geometry"]["coordinates"] for place in which]
        if which:
            draw(ax, shapes, values[which], {"cmap": COLOURS, **style})
    ax.autoscale_view()
    middle = sum(ax.get_ylim()) / 2
    ax.set_aspect(1 / max(numpy.cos(numpy.radians(middle)), 0.01) if abs(middle) < 90 else 1)
    ax.set(xlabel="longitude", ylabel="latitude")
    return ax


def draw_points(ax: Any, points: Sequence[Any], values: Floats, style: Mapping[str, Any]) -> None:
    ax.scatter(*numpy.array(points, float).T, c=values, **{"s": 4, **style})


def draw_lines(ax: Any, lines: Sequence[Any], values: Floats, style: Mapping[str, Any]) -> None:
    from matplotlib.collections import LineCollection

    drawn = [numpy.array(line, float) for line in lines]
    ax.add_collection(LineCollection(drawn, array=values, **style))


def draw_polygons(ax: Any, areas: Sequence[Any], values: Floats, style: Mapping[str, Any]) -> None:
    from matplotlib.collections import PathCollection
    from matplotlib.path import Path

    rings = [[ring for polygon in area for ring in polygon] for area in areas]
    closed = [[Path(numpy.array(ring, float), closed=True) for ring in own] for own in rings]
    paths = [Path.make_compound_path(*own) for own in closed]
    ax.add_collection(PathCollection(paths, array=values, **{"alpha": 0.5, **style}))


def explored(features: Sequence[Geojson], name: str, style: Mapping[str, Any]) -> folium.Map:
    """Shows features on a map of folium, each with its properties as a tooltip."""
    import folium
    from matplotlib import colormaps, colors

    values = values_of(features, name)
    finite = values[numpy.isfinite(values)]
    scale = colors.Normalize(finite.min(initial=numpy.inf), finite.max(initial=-numpy.inf))
    shown, bounds = folium.Map(), []
    for feature, value in zip(features, values):
        part = float(scale(value)) if numpy.isfinite(value) else 0.0
        own = {"color": colors.to_hex(colormaps[COLOURS](part)), "weight": 4, **style}
        lines = (f"{key}: {each}" for key, each in feature["properties"].items())
        is_point = feature["geometry"]["type"] == "Point"
        marker = folium.CircleMarker(radius=3, **own) if is_point else None
        item = folium.GeoJson(feature, style_function=lambda _, own=own: own, marker=marker)
        item.add_child(folium.Tooltip("<br>".join(map(html.escape, lines))))
        item.add_to(shown)
        bounds.append(item.get_bounds())
    if bounds:
        corners = numpy.array(bounds, float)
        shown.fit_bounds([corners[:, 0].min(axis=0).tolist(), corners[:, 1].max(axis=0).tolist()])
    return shown


def geodataframe(collection: dict) -> geopandas.GeoDataFrame:
    """The features of a collection as rows in degrees, None for a missing geometry."""
    import geopandas

    features = collection["features"]
    columns = [*(features[0]["properties"] if features else ()), "geometry"]
    return geopandas.GeoDataFrame.from_features(features, DEGREES, columns)


def with_geometry(frame: pandas.DataFrame, shapes: Sequence[Any]) -> geopandas.GeoDataFrame:
    """A frame with shapes in degrees as its geometry."""
    import geopandas

    geometry = geopandas.GeoSeries(shapes, index=frame.index, crs=DEGREES)
    return geopandas.GeoDataFrame(frame, geometry=geometry)
