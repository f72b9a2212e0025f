"""Layers of geometry texts, read exactly as docs/FORMATS.md says; the tools share this reader.

Coordinates are whole numbers, the written values times 10^scale. What is at fault raises `LayerFault`, whose words are the note that
`locate` writes. That holds of the limits of `locate` too, on the length of the text and on the numbers of features and points: a layer
that is past one of them is refused as soon as that is seen.
"""
import csv
import io
import re
from argparse import RawDescriptionHelpFormatter
from typing import NamedTuple

import endings

WHITE = " \t\r\n"
LARGEST = 10 ** 18
LONGEST_ID = 200
LONGEST_TEXT = 2 ** 28
MOST_FEATURES = 2 ** 18
MOST_POINTS = 2 ** 20

NUMBER = re.compile(r"[-+]?(?:[0-9]+(?:\.[0-9]*)?|\.[0-9]+)(?:[eE][-+]?[0-9]+)?")
FIRST_WORD = re.compile(r"[ \t\r\n]*([A-Za-z]+)[ \t\r\n]*([A-Za-z]*)")


def grammar(point):
    """The pattern of a geometry text in capitals, where `#` stands for a number and `point` is the pattern of a point."""
    def listed(item):
        return rf"\(\s*{item}\s*(?:,\s*{item}\s*)*\)"
    polygon = rf"(?:EMPTY|{listed(listed(point))})"
    multi = rf"(?:EMPTY|{listed(polygon)})"
    return re.compile(rf"\s*(?:POLYGON\s*{polygon}|MULTIPOLYGON\s*{multi})\s*", re.ASCII)


IN_THE_PLANE = grammar(r"#\s+#")
IN_ANY_DIMENSION = grammar(r"#(?:\s+#){1,3}")
RING = re.compile(r"\([^()]*\)")


class LayerFault(Exception):
    """The note that refuses a layer."""


class Feature(NamedTuple):
    name: str
    place: int
    rings: list


class Layer(NamedTuple):
    """The features, and the text as it was cut: the lines, or the records of a CSV with the column of the geometry."""
    features: list
    scale: int
    pieces: list
    column: int


def read_layer(path, scale, form="lines"):
    """The layer in a file; form is `lines` or `csv`."""
    return layer_of(read_text(path), scale, form)


def read_text(path):
    """The text of a layer's file, with its byte order mark where it has one; bytes that are no UTF-8 are kept as surrogates."""
    with open(path, "rb") as file:
        content = file.read(LONGEST_TEXT + 1)
    if len(content) > LONGEST_TEXT:
        raise LayerFault("layer: too long")
    return content.decode("utf-8", "surrogateescape")


def layer_of(text, scale, form):
    text = text.removeprefix("\ufeff")
    return read_records(text, scale) if form == "csv" else read_lines(text, scale)


def read_lines(text, scale):
    lines = text.split("\n")
    if lines[-1] == "":
        lines.pop()
    features, room = [], Room()
    for number, line in enumerate(lines, 1):
        if line.strip(WHITE):
            features.append(Feature(str(number), number, placed(f"line {number}", line, scale)))
            room.take(features[-1], f"line {number}")
    return Layer(features, scale, lines, -1)


def read_records(text, scale):
    records = records_of(text)
    names = [name.lower() for name in records[0]] if records else []
    if "wkt" not in names:
        raise LayerFault("layer: no wkt column")
    column = names.index("wkt")
    features, room = [], Room()
    for number, record in enumerate(records[1:], 1):
        if len(record) != len(names):
            raise LayerFault(f"layer row {number}: fields")
        name = checked_id(record[names.index("id")], number) if "id" in names else str(number)
        blank = not record[column].strip(WHITE)
        features.append(Feature(name, number, [] if blank else placed(f"row {number}", record[column], scale)))
        room.take(features[-1], f"row {number}")
    return Layer(features, scale, records, column)


def records_of(text):
    """The records of a CSV, without its blank lines."""
    csv.field_size_limit(2 ** 31 - 1)
    try:
        return [record for record in csv.reader(io.StringIO(text.removeprefix("\ufeff"), newline="")) if record]
    except csv.Error as error:
        raise LayerFault(f"layer: {error}") from None


class Room:
    """How many features and ring points may still come."""

    def __init__(self):
        self.features, self.points = MOST_FEATURES, MOST_POINTS

    def take(self, feature, place):
        self.features -= 1
        self.points -= sum(map(len, feature.rings))
        if self.features < 0:
            raise LayerFault(f"layer {place}: too many features")
        if self.points < 0:
            raise LayerFault(f"layer {place}: too many points")


def checked_id(name, number):
    try:
        length = len(name.encode("utf-8"))
    except UnicodeEncodeError:
        raise LayerFault(f"layer row {number}: id not UTF-8") from None
    if length > LONGEST_ID:
        raise LayerFault(f"layer row {number}: id too long")
    return name


def placed(place, text, scale):
    """The rings of a geometry text, or its fault with the place where it stands."""
    try:
        return read_geometry(text, scale)
    except LayerFault as fault:
        raise LayerFault(f"layer {place}: {fault}") from None


def read_geometry(text, scale):
    """The rings of a POLYGON or MULTIPOLYGON text, each a list of points."""
    shape = NUMBER.sub("#", text.replace("#", "?")).upper()
    check_grammar(text, shape)
    values = []
    for number, written in enumerate(NUMBER.findall(text), 1):
        value = grid_value(written, scale)
        if isinstance(value, str):
            raise LayerFault(f"number {number} {value}")
        values.append(value)
    points = list(zip(values[0::2], values[1::2]))
    rings, start = [], 0
    for found in RING.findall(shape):
        end = start + found.count("#") // 2
        rings.append(points[start:end])
        start = end
    for number, ring in enumerate(rings, 1):
        if len(ring) < 4:
            raise LayerFault(f"ring {number} short")
        if ring[0] != ring[-1]:
            raise LayerFault(f"ring {number} open")
    return rings


def check_grammar(text, shape):
    if IN_THE_PLANE.fullmatch(shape):
        return
    words = FIRST_WORD.match(text)
    if not words:
        raise LayerFault("syntax")
    if words[1].upper() not in ("POLYGON", "MULTIPOLYGON"):
        raise LayerFault("tag")
    if words[2].upper() in ("Z", "M", "ZM") or IN_ANY_DIMENSION.fullmatch(shape):
        raise LayerFault("dimension")
    raise LayerFault("syntax")


def grid_value(written, scale):
    """The value of a number times 10^scale, or the words `off grid` or `out of range`; by its digits alone, however long they are."""
    mantissa, _, exponent = written.lower().partition("e")
    whole, _, decimals = mantissa.lstrip("+-").partition(".")
    digits = (whole + decimals).lstrip("0")
    if not digits:
        return 0
    significant = digits.rstrip("0")
    zeros = scale + small_int(exponent) - len(decimals) + len(digits) - len(significant)
    if zeros < 0:
        return "off grid"
    if len(significant) + zeros > 19:
        return "out of range"
    value = int(significant) * 10 ** zeros
    if value > LARGEST:
        return "out of range"
    return -value if mantissa[0] == "-" else value


def rounded(written, scale):
    """The value of a number times 10^scale, rounded to a whole number, halves away from zero; None where that is out of range."""
    mantissa, _, exponent = written.lower().partition("e")
    whole, _, decimals = mantissa.lstrip("+-").partition(".")
    digits = (whole + decimals).lstrip("0")
    zeros = scale + small_int(exponent) - len(decimals)
    if len(digits) + zeros > 19:
        return None if digits else 0
    if zeros >= 0:
        value = int(digits or "0") * 10 ** zeros
    else:
        value = int(digits[:zeros] or "0") + (-zeros <= len(digits) and digits[zeros] >= "5")
    if value > LARGEST:
        return None
    return -value if mantissa[0] == "-" else value


def small_int(written):
    """The value of an exponent; one that no text is long enough to make up for stands as plus or minus 10^12."""
    digits = written.lstrip("+-").lstrip("0")
    value = 10 ** 12 if len(digits) > 12 else int(digits or "0")
    return -value if written.startswith("-") else value


def edges_of(layer):
    """The edges in order, each from its lower to its upper end, with the numbers of the features that have it as a side."""
    owners = {}
    for number, feature in enumerate(layer.features):
        for ring in feature.rings:
            for start, end in zip(ring, ring[1:]):
                if start != end:
                    found = owners.setdefault((start, end) if start < end else (end, start), [])
                    if not found or found[-1] != number:
                        found.append(number)
    edges = sorted(owners)
    return edges, [owners[edge] for edge in edges]


def write_without(layer, left_out, path):
    """Writes the layer; of a feature whose number is left out stays an empty line, or a row without geometry, so that all ids stay."""
    places = {layer.features[number].place for number in left_out}
    with open(path, "w", encoding="utf-8", errors="surrogateescape", newline="") as file:
        if layer.column < 0:
            file.writelines(("" if number in places else line) + "\n" for number, line in enumerate(layer.pieces, 1))
            return
        writer = csv.writer(file, lineterminator="\n")
        for number, record in enumerate(layer.pieces):
            cut = ["" if at == layer.column and number in places else field for at, field in enumerate(record)]
            writer.writerow(cut)


def turn(a, b, p):
    """Above 0 where p lies to the left of the way from a to b, 0 where in line with it."""
    return (b[0] - a[0]) * (p[1] - a[1]) - (b[1] - a[1]) * (p[0] - a[0])


def printed(value, scale):
    """A coordinate as `locate` prints it, with exactly `scale` decimals."""
    digits = str(abs(value)).rjust(scale + 1, "0")
    cut = len(digits) - scale
    return ("-" if value < 0 else "") + digits[:cut] + ("." + digits[cut:] if scale else "")


def printed_edge(edge, scale):
    return ", ".join(f"{printed(x, scale)} {printed(y, scale)}" for x, y in edge)


def quoted(name):
    return '"' + name.replace('"', '""') + '"'


def names(layer, numbers):
    """The quoted names of features, given by their numbers from 0."""
    return " ".join(quoted(layer.features[number].name) for number in numbers)


def parser(description):
    """The words that the tools take: a layer, its scale and its form."""
    words = endings.Words(description=description, formatter_class=RawDescriptionHelpFormatter)
    words.add_argument("layer")
    words.add_argument("--scale", type=int, required=True, choices=range(16), metavar="K")
    words.add_argument("--form", choices=("lines", "csv"), default="lines")
    return words
