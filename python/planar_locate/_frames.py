"""Points and polygons of geopandas, joined by where the points lie."""
from __future__ import annotations

import warnings
from typing import TYPE_CHECKING, Any, Iterator, List, Tuple

from ._answers import Answer
from ._layers import Layer
from ._points import rounded, written

if TYPE_CHECKING:
    import geopandas
    import numpy

# The ids that an answer gives to a point, by the word for how a point and a polygon lie.
PREDICATES = {
    "intersects": lambda answer: answer.on + answer.covered_by,
    "covered_by": lambda answer: answer.on + answer.covered_by,
    "within": lambda answer: answer.covered_by,
    "touches": lambda answer: answer.on,
}
HOWS = ("inner", "left", "right")


def sjoin(points: "geopandas.GeoDataFrame", polygons: "geopandas.GeoDataFrame", scale: int, how: str = "inner",
          predicate: str = "intersects", lsuffix: str = "left", rsuffix: str = "right", *, round: bool = False) -> "geopandas.GeoDataFrame":
    """Joins points with the polygons that they lie in or on, exactly, as `geopandas.sjoin` does by floating point.

    Args:
        points: a GeoDataFrame of points. One without geometry lies nowhere.
        polygons: a GeoDataFrame of polygons and multipolygons, of which no two edges conflict.
        scale: how many decimals a coordinate may have, 0 to 15.
        how: `inner` and `left` keep the geometry of the points, `right` that of the polygons.
        predicate: `intersects` and `covered_by` mean in the polygon or on its border, `within` in it and not on its border, `touches` on
            its border.
        lsuffix, rsuffix: what is put behind the names of columns that both have, and behind `index_`.
        round: rounds coordinates with more decimals than the scale, halves away from zero.

    Returns:
        A GeoDataFrame as that of `geopandas.sjoin`, in the order of the points, or with `right` of the polygons; and a column `place`:
        `corner 8`, `border 9`, `face`, or None where there is no point.

    Raises:
        Refused: two edges of polygons conflict, or a coordinate of theirs has more decimals than the scale; `line` counts the polygons
            from 1.
        Unread: a coordinate of a point has more decimals than the scale.
        ValueError: another word for `how` or `predicate`, geometries of another kind, or a column that has the name of a new one.
        ImportError: geopandas is not there.
    """
    import geopandas
    import numpy
    import pandas

    check_words(points, polygons, how, predicate, lsuffix, rsuffix)
    rows, codes, answers = ask(points, polygons, scale, round)
    at_left, at_right = pairs(rows, codes, [[int(name) for name in PREDICATES[predicate](answer)] for answer in answers])
    places = numpy.full(len(points), None, dtype=object)
    names = numpy.array([answer.name for answer in answers] + [None], dtype=object)
    places[rows] = names[codes]
    at_left, at_right = with_lone(at_left, at_right, how, len(points), len(polygons))
    own, other, at_own, at_other, suffixes, word = (
        (polygons, points, at_right, at_left, (rsuffix, lsuffix), f"index_{lsuffix}") if how == "right" else
        (points, polygons, at_left, at_right, (lsuffix, rsuffix), f"index_{rsuffix}"))
    rest = other.drop(columns=other.geometry.name)
    shared = set(own.columns).intersection(rest.columns) - {own.geometry.name}
    found = own.take(at_own).rename(columns={name: f"{name}_{suffixes[0]}" for name in shared})
    more = pandas.DataFrame(rest).reset_index(drop=True).reindex(at_other).rename(columns={name: f"{name}_{suffixes[1]}" for name in shared})
    more.insert(0, word, pandas.Series(other.index).reindex(at_other).to_numpy())
    more.index = found.index
    column = pandas.Series(places).reindex(at_left).to_numpy()
    parts = [more, found] if how == "right" else [found, more]
    joined = pandas.concat(parts, axis=1)
    joined["place"] = column
    return geopandas.GeoDataFrame(joined, geometry=own.geometry.name, crs=own.crs)


def check_words(points: Any, polygons: Any, how: str, predicate: str, lsuffix: str, rsuffix: str) -> None:
    if how not in HOWS:
        raise ValueError(f"how is one of {', '.join(HOWS)}, not {how!r}")
    if predicate not in PREDICATES:
        raise ValueError(f"predicate is one of {', '.join(PREDICATES)}, not {predicate!r}")
    for frame in (points, polygons):
        taken = {f"index_{lsuffix}", f"index_{rsuffix}", "place"}.intersection(frame.columns)
        if taken:
            raise ValueError(f"a column of the result has the name of one that is there: {', '.join(sorted(taken))}")
        if frame.index.nlevels > 1:
            raise ValueError("an index of several levels: use reset_index first")
    if points.crs != polygons.crs:
        warnings.warn(f"points and polygons are in different coordinate systems: {points.crs} and {polygons.crs}", stacklevel=3)


def ask(points: Any, polygons: Any, scale: int, is_rounding: bool) -> "Tuple[numpy.ndarray, numpy.ndarray, List[Answer]]":
    """The rows that have a point, for each of these the number of its answer, and the different answers."""
    import numpy

    shapes = points.geometry
    rows = numpy.flatnonzero(~(shapes.isna() | shapes.is_empty))
    some = shapes.iloc[rows]
    if len(rows) and not (some.geom_type == "Point").all():
        raise ValueError("points hold geometries that are no points")
    layer = Layer(texts_of(polygons, scale, is_rounding), scale)
    places = numpy.column_stack([some.x, some.y]) if len(rows) else numpy.empty((0, 2))
    known, codes = layer._codes(places, is_rounding, "raise")
    return rows, numpy.asarray(codes), known.answers


def texts_of(polygons: Any, scale: int, is_rounding: bool) -> Iterator[Tuple[str, str]]:
    """The number of each polygon, from 0, and its text."""
    for number, shape in enumerate(polygons.geometry):
        yield str(number), "" if shape is None or shape.is_empty else text_of(shape, scale, is_rounding)


def text_of(shape: Any, scale: int, is_rounding: bool) -> str:
    """The text of a polygon with all digits of its coordinates, or rounded."""
    if shape.geom_type not in ("Polygon", "MultiPolygon"):
        raise ValueError(f"polygons hold a {shape.geom_type}")

    def number(value: float) -> str:
        return rounded(written(value), scale) if is_rounding else written(value)

    def ring(line: Any) -> str:
        return "(" + ", ".join(f"{number(point[0])} {number(point[1])}" for point in line.coords) + ")"

    parts = shape.geoms if shape.geom_type == "MultiPolygon" else [shape]
    return "MULTIPOLYGON (" + ", ".join("(" + ", ".join(map(ring, [part.exterior, *part.interiors])) + ")" for part in parts) + ")"


def pairs(rows: "numpy.ndarray", codes: "numpy.ndarray", partners: List[List[int]]) -> "Tuple[numpy.ndarray, numpy.ndarray]":
    """The rows of points, and beside them the rows of polygons, a pair for each partner of each point, in order."""
    import numpy

    flat = numpy.array([partner for found in partners for partner in found], dtype=numpy.intp)
    lengths = numpy.array([len(found) for found in partners] or [0], dtype=numpy.intp)
    starts = numpy.cumsum(lengths) - lengths
    if not len(codes):
        return numpy.empty(0, dtype=numpy.intp), numpy.empty(0, dtype=numpy.intp)
    counts = lengths[codes]
    before = numpy.cumsum(counts) - counts
    within = numpy.arange(counts.sum()) - numpy.repeat(before, counts)
    return numpy.repeat(rows, counts), flat[numpy.repeat(starts[codes], counts) + within]


def with_lone(at_left: Any, at_right: Any, how: str, points: int, polygons: int) -> "Tuple[numpy.ndarray, numpy.ndarray]":
    """The pairs, and where that is asked for a pair with -1 for each point or polygon without a partner; ordered by what is kept."""
    import numpy

    if how == "inner":
        return at_left, at_right
    kept, count = (at_left, points) if how == "left" else (at_right, polygons)
    lone = numpy.setdiff1d(numpy.arange(count), kept)
    none = numpy.full(len(lone), -1)
    at_left = numpy.concatenate([at_left, lone if how == "left" else none])
    at_right = numpy.concatenate([at_right, none if how == "left" else lone])
    order = numpy.argsort(at_left if how == "left" else at_right, kind="stable")
    return at_left[order], at_right[order]
