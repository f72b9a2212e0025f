"""Points as text: of numbers one by one, and of numpy arrays by the million."""
from __future__ import annotations

import operator
from decimal import ROUND_HALF_UP, Context, Decimal, InvalidOperation
from itertools import islice
from typing import TYPE_CHECKING, Any, Iterable, Iterator, Tuple, Union

if TYPE_CHECKING:
    import numpy

Number = Union[int, float, str, Decimal]
Point = Tuple[Number, Number]

POINTS_OF_A_BLOCK = 50_000
# Whole numbers below this have at most 15 digits, which a float keeps.
EXACT = 10 ** 15
WIDE = Context(prec=400)
NO_NUMBER = "?"


def written(value: Any) -> str:
    """A number as text: a float by the shortest text that reads back as it, a text as it is where it is one word, else a text that is
    unread.

    Raises:
        TypeError: it is no int, float, str or Decimal, nor a number of numpy.
    """
    if isinstance(value, str):
        word = value.strip()
        return word if word and len(word.split()) == 1 else NO_NUMBER
    if isinstance(value, float):
        return float.__repr__(value)
    if isinstance(value, Decimal):
        return str(value)
    if value is None:
        return NO_NUMBER
    try:
        return str(operator.index(value))
    except TypeError:
        if type(value).__module__ == "numpy" and getattr(value, "dtype", None) is not None:
            return str(value)
        raise TypeError(f"a coordinate is an int, a float, a str or a Decimal, not {type(value).__name__}") from None


def rounded(word: str, scale: int) -> str:
    """A number's text with at most `scale` decimals, halves away from zero."""
    try:
        value = Decimal(word)
        return str(value.quantize(Decimal(1).scaleb(-scale), ROUND_HALF_UP, WIDE)) if value.is_finite() else word
    except InvalidOperation:
        return word


def blocks_of(points: Iterable[Any], scale: int, is_rounding: bool) -> Iterator[bytes]:
    """The points text in blocks of whole lines.

    Raises:
        TypeError: a point is no pair of coordinates.
    """
    if hasattr(points, "__array_interface__"):
        yield from blocks_of_array(points, scale, is_rounding)
        return
    walk = iter(points)
    while True:
        some = list(islice(walk, POINTS_OF_A_BLOCK))
        if not some:
            return
        yield "".join([line_of(point, scale, is_rounding) for point in some]).encode("utf-8", "replace")


def line_of(point: Any, scale: int, is_rounding: bool) -> str:
    try:
        x, y = point
    except (TypeError, ValueError):
        raise TypeError(f"a point is a pair of coordinates, not {point!r}") from None
    words = written(x), written(y)
    if is_rounding:
        words = rounded(words[0], scale), rounded(words[1], scale)
    return f"{words[0]} {words[1]}\n"


def blocks_of_array(points: Any, scale: int, is_rounding: bool) -> Iterator[bytes]:
    """The points text of a numpy array of two columns."""
    import numpy

    points = numpy.asarray(points)
    if points.ndim != 2 or points.shape[1] != 2:
        raise TypeError(f"points in an array stand in two columns, not in the shape {points.shape}")
    for start in range(0, len(points), POINTS_OF_A_BLOCK):
        some = points[start:start + POINTS_OF_A_BLOCK]
        units = units_of(some, scale, is_rounding)
        if units is None:
            yield "".join([line_of(point, scale, is_rounding) for point in some]).encode("utf-8", "replace")
        else:
            yield fixed_lines(units, scale)


def units_of(values: "numpy.ndarray", scale: int, is_rounding: bool) -> "numpy.ndarray | None":
    """Numbers times 10^scale as whole numbers, or None where they cannot be told to be just these by a float: they have more digits, or
    are to be rounded close to a half."""
    import numpy

    if values.dtype.kind in "iu" and values.dtype != numpy.uint64:
        # within int64 and within the range of a point
        inside = bool((numpy.abs(values.astype(numpy.float64)) * 10.0 ** scale < 1e18).all())
        return values.astype(numpy.int64) * 10 ** scale if inside and len(values) else None
    if values.dtype != numpy.float64:
        return None
    with numpy.errstate(over="ignore", invalid="ignore"):
        grown = values * 10.0 ** scale
        nearest = numpy.rint(grown)
    if not (numpy.abs(nearest) < EXACT).all():
        return None
    units = nearest.astype(numpy.int64)
    if is_rounding:
        # a product is off by less than 1/1000 below 10^12; what is closer to a half, or larger, is rounded by its digits
        is_unsure = (numpy.abs(numpy.abs(grown - nearest) - 0.5) <= 1e-3) | (numpy.abs(nearest) >= 10 ** 12)
        units[is_unsure] = [int(Decimal(rounded(repr(value), scale)).scaleb(scale, WIDE)) for value in values[is_unsure].tolist()]
        return units
    # the decimal text with this many units has at most 15 digits, and reads as the float: so it is the shortest that does
    return units if (nearest / 10.0 ** scale == values).all() else None


def fixed_lines(units: "numpy.ndarray", scale: int) -> bytes:
    """A line for each row of two whole numbers, which are divided by 10^scale; all numbers have the same width, with zeros in front."""
    import numpy

    count = len(units)
    digits = max(len(str(int(numpy.abs(units).max()))), scale + 1)
    width = 1 + digits + (1 if scale else 0)
    text = numpy.empty((count, 2, width + 1), dtype=numpy.uint8)
    text[:, :, 0] = numpy.where(units < 0, ord("-"), ord("+"))
    left = numpy.abs(units)
    at = width - 1
    for number in range(digits):
        if scale and number == scale:
            text[:, :, at] = ord(".")
            at -= 1
        rest = left // 10
        text[:, :, at] = left - rest * 10 + ord("0")
        left = rest
        at -= 1
    text[:, 0, width] = ord(" ")
    text[:, 1, width] = ord("\n")
    return text.tobytes()
