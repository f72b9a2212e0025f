"""Polygons out of geometry texts of any kind, as whole numbers at a scale.

A geometry is a list of polygons, a polygon a list of rings, and a ring a list of points (x, y): the written values times 10^scale.
"""
import re
from typing import NamedTuple

import layer_text

# More decimals than any scale has are cut off: rounding halves away from zero to 15 decimals or fewer does not look at them.
MOST_DECIMALS = 16
# No number is read whose whole part has more digits.
FURTHEST = 100

HEAD = re.compile(r"\s*(?:SRID\s*=\s*[0-9]+\s*;)?\s*([A-Z]+?)\s*(?:Z|M|ZM)?\s*(?=[(]|EMPTY\s*$)", re.IGNORECASE)
RING = re.compile(r"\(([^()]*)\)")
POLYGON = r"\(\s*\([^()]*\)(?:\s*,\s*\([^()]*\))*\s*\)"
ONE = re.compile(POLYGON + r"\s*")
MANY = re.compile(rf"\(\s*(?:{POLYGON}|EMPTY)(?:\s*,\s*(?:{POLYGON}|EMPTY))*\s*\)\s*", re.IGNORECASE)
PARTS = re.compile(POLYGON)
# What a text that is empty holds.
NOTHING = "no geometry"
ONE_POLYGON = ("POLYGON", "TRIANGLE")
MANY_POLYGONS = ("MULTIPOLYGON", "TIN", "POLYHEDRALSURFACE")
KINDS = {"POINT": "points", "MULTIPOINT": "points", "LINESTRING": "lines", "MULTILINESTRING": "lines", "LINEARRING": "lines",
         "CURVEPOLYGON": "curves", "MULTISURFACE": "curves", "COMPOUNDCURVE": "curves", "CIRCULARSTRING": "curves", "MULTICURVE": "curves"}


class NoGeometry(Exception):
    """Why a text is no geometry."""


class Found(NamedTuple):
    """What a geometry text holds: the texts of the rings of each polygon, and the kinds of all else, such as `points`."""
    polygons: list
    others: list


def read_text(text):
    """The polygons of a geometry text, by the texts of their rings. Heights and measures are still in them."""
    if not text.strip():
        return Found([], [NOTHING])
    head = HEAD.match(text)
    if not head:
        raise NoGeometry("it is no geometry text")
    kind, body = head[1].upper(), text[head.end():]
    if body.strip().upper() == "EMPTY":
        return Found([], [NOTHING])
    if kind in ONE_POLYGON or kind in MANY_POLYGONS:
        if not (ONE if kind in ONE_POLYGON else MANY).fullmatch(body):
            raise NoGeometry("its parentheses are not those of a polygon")
        return Found([RING.findall(part) for part in PARTS.findall(body)], [])
    if kind == "GEOMETRYCOLLECTION":
        return together(map(read_text, members(body)))
    if kind not in KINDS:
        raise NoGeometry(f"{kind} is no kind of geometry")
    return Found([], [KINDS[kind]])


def together(found):
    polygons, others = [], []
    for part in found:
        polygons += part.polygons
        others += part.others
    return Found(polygons, others)


def members(body):
    """The texts of the geometries of a collection."""
    body = body.strip()
    depth, start, parts = 0, 1, []
    for at, sign in enumerate(body):
        depth += {"(": 1, ")": -1}.get(sign, 0)
        if depth == 0 and at < len(body) - 1 or depth < 0:
            raise NoGeometry("the parentheses of the collection do not match")
        if (sign == "," and depth == 1) or depth == 0:
            parts.append(body[start:at])
            start = at + 1
    if depth:
        raise NoGeometry("the parentheses of the collection do not match")
    return parts


def numbers_of(ring):
    """The words of the numbers of a ring: those of x, and those of y."""
    words = ring.replace(",", " ").split()
    points = ring.count(",") + 1
    each = len(words) // points
    if each * points != len(words) or not 2 <= each <= 4:
        raise NoGeometry("a point has not two, three or four numbers")
    if not all(map(layer_text.NUMBER.fullmatch, words)):
        raise NoGeometry(f"{next(word for word in words if not layer_text.NUMBER.fullmatch(word))} is no number")
    if "e" in ring or "E" in ring:
        words = list(map(plain, words))
    return words[0::each], words[1::each]


def plain(word):
    """A number without its exponent."""
    mantissa, _, exponent = word.lower().partition("e")
    sign = mantissa[0] if mantissa[0] in "+-" else ""
    whole, _, decimals = mantissa.lstrip("+-").partition(".")
    digits = whole + decimals
    point = len(whole) + layer_text.small_int(exponent)
    if not digits.strip("0"):
        return "0"
    if point > FURTHEST:
        raise NoGeometry(f"{word} is out of range")
    if point <= 0:
        return f"{sign}0.{'0' * min(-point, MOST_DECIMALS)}{digits}"
    return f"{sign}{digits[:point].ljust(point, '0')}.{digits[point:]}"


def decimals_of(words):
    """How many decimals the words need at most, up to MOST_DECIMALS, which stands for all that are more."""
    return min(max([len(word.partition(".")[2].rstrip("0")) for word in words], default=0), MOST_DECIMALS)


def values_of(words, scale):
    """The values times 10^scale, where `scale` is not below the decimals of the words or is MOST_DECIMALS."""
    return [value_of(word, scale) for word in words]


def value_of(word, scale):
    whole, _, decimals = word.partition(".")
    return int(whole + decimals[:scale].ljust(scale, "0"))


def rounded(values, step):
    """The values divided by the step, an even number or 1, and rounded to whole numbers, halves away from zero."""
    if step == 1:
        return values
    half = step // 2
    return [(value + half) // step if value >= 0 else -((half - value) // step) for value in values]


def without_repeats(points):
    """The points without those that equal the one before."""
    return [point for at, point in enumerate(points) if at == 0 or point != points[at - 1]]
