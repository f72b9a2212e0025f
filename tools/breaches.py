"""The first rule of the standard that each feature of a layer breaks, as `locate valid` tells it: tools/view marks it, and tools/why cites it."""
import re
from typing import NamedTuple

import layer_text
import locate_program

NUMBER = layer_text.NUMBER.pattern
POINT = rf"({NUMBER}) ({NUMBER})"
EDGE = re.compile(rf"{POINT}, {POINT}")
PINCH = re.compile(rf"ring [0-9]+ twice at {POINT}")
RINGS = re.compile(r"\bring ([0-9]+)")
OF_POLYGON = re.compile(r"polygon ([0-9]+) in ")
# A polygon of a MULTIPOLYGON, and a ring, in capitals.
POLYGON = re.compile(r"EMPTY|\([^()]*(?:\([^()]*\)[^()]*)+\)")
RING = re.compile(r"\([^()]*\)")


class Breach(NamedTuple):
    """A feature by its number from 0, what is told of it, and the whole line."""
    number: int
    words: str
    line: str


class Marks(NamedTuple):
    """Where a breach stands: edges, rings and points."""
    edges: list
    rings: list
    points: list


def of_layer(path, scale, form, layer):
    """The breaches of the features of a layer, which is also given as it was read."""
    done = locate_program.run(["valid", path, "--scale", scale, "--form", form])
    if done.status:
        raise locate_program.ending_of(done.status, done.note)
    text, at, found = done.output.decode("utf-8", "surrogateescape"), 0, []
    for number, feature in enumerate(layer.features):
        start = at + len(layer_text.quoted(feature.name)) + 1
        end = text.index("\n", start)
        if text[start:end] != "valid":
            found.append(Breach(number, text[start:end], text[at:end]))
        at = end + 1
    return found


def marks_of(breach, layer):
    """Where a breach stands."""
    feature = layer.features[breach.number]
    edges = [(point(found[:2], layer), point(found[2:], layer)) for found in EDGE.findall(breach.words)]
    pinch = PINCH.fullmatch(breach.words)
    if edges or pinch:
        return Marks(edges, [], [point(pinch.groups(), layer)] if pinch else [])
    polygon = OF_POLYGON.match(breach.words)
    if polygon:
        counts = ring_counts(text_of(layer, feature))
        first = sum(counts[:int(polygon[1]) - 1])
        return Marks([], feature.rings[first:first + counts[int(polygon[1]) - 1]], [])
    rings = [feature.rings[int(found) - 1] for found in RINGS.findall(breach.words)]
    return Marks([], rings, [ring[0] for ring in rings if len(set(ring)) == 1])


def point(words, layer):
    return tuple(layer_text.grid_value(word, layer.scale) for word in words)


def text_of(layer, feature):
    """The geometry text of a feature."""
    return layer.pieces[feature.place - 1] if layer.column < 0 else layer.pieces[feature.place][layer.column]


def ring_counts(text):
    """How many rings each polygon of a geometry text has."""
    tag, _, body = text.upper().partition("POLYGON")
    polygons = POLYGON.findall(body.strip(layer_text.WHITE)[1:-1]) if tag.strip(layer_text.WHITE) else [body]
    return [len(RING.findall(polygon)) for polygon in polygons]
