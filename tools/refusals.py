"""Why `locate` refuses a layer, in words for its user: what tools/why writes, and tools/import where the layer is refused in the end.

Distances are in the unit of the layer, and rounded up to three digits. What decides is reckoned in whole numbers.
"""
import csv
import io
import math
import os
import re
import shlex
from collections import Counter
from typing import NamedTuple

import breaches
import conflicts
import layer_text
from endings import REFUSED, Ending
from layer_text import LONGEST_ID, MOST_FEATURES, MOST_POINTS, NUMBER, WHITE, grid_value, printed, quoted

LARGEST_SCALE = 15
# How many edges are looked at in all, to tell how many conflicts there are at smaller scales.
MOST_EDGES = 400_000
# More digits of a distance than the scale has, before it is rounded up.
MORE_DIGITS = 4
# A conflict is small where it is at most the extent of the layer divided by this.
SMALL = 100
# A conflict of at most so many units of the scale comes from rounding.
UNITS_OF_ROUNDING = 2
LONGEST_SHOWN = 60
# How many groups of sizes are told at most.
MOST_SIZES = 5

PLACED = re.compile(r"layer (line|row) ([0-9]+): (.*)", re.DOTALL)
CONFLICT = re.compile(r"layer: edges (.*) and (.*) cross")
OF_NUMBER = re.compile(r"number ([0-9]+) (off grid|out of range)")
OF_RING = re.compile(r"ring ([0-9]+) (short|open)")


class Piece(NamedTuple):
    """A feature as it is written: its number, its line in the file, its id, and its geometry text."""
    number: int
    line: int
    name: str
    text: str


class Case(NamedTuple):
    """A layer that is refused, the note that refuses it, the source that it was made of, where that is known, and whether that may have
    more decimals."""
    path: str
    scale: int
    form: str
    note: str
    source: str
    has_finer: bool

    def words(self):
        """The layer as the tools are told of it."""
        return f"{shlex.quote(str(self.path))} {{}} --scale {self.scale}" + (" --form csv" if self.form == "csv" else "")

    def out(self, word, form=None):
        """A name for a file that is made of the layer."""
        name = os.path.splitext(os.path.basename(str(self.path)))[0]
        return shlex.quote(f"{name}_{word}" + (".csv" if (form or self.form) == "csv" else ".wkt"))

    def command(self, tool, more=""):
        return f"tools/{tool} {self.words().format(self.out('mended'))}{more}"

    def import_command(self, more):
        return f"tools/import {shlex.quote(str(self.source or self.path))} {self.out('new', 'csv')} {more}".rstrip()


def is_conflict(run):
    """Whether a run of `check` refused a layer for two edges that conflict."""
    return run.status == REFUSED and CONFLICT.fullmatch(run.note) is not None


def explained(path, scale, form, note, source=None, has_finer=True):
    """The lines that explain a note with which `locate` refused a layer."""
    case = Case(path, scale, form, note, source, has_finer)
    return [f"refused: {note}"] + lines_of(case)


def lines_of(case):
    if CONFLICT.fullmatch(case.note):
        return of_conflicts(case)
    placed = PLACED.fullmatch(case.note)
    if placed:
        return of_place(case, int(placed[2]), placed[3])
    if case.note == "layer: no wkt column":
        return of_header(case)
    if case.note == "layer: too long":
        return ["cause: the text of a layer has at most 2^28 = 268435456 bytes", *cut_up()]
    if case.note.startswith("layer: pieces past"):
        return ["cause: a border is cut at each corner of a neighbour that lies on it, and more pieces come of that than the program takes",
                *cut_up()]
    if case.note.startswith("layer: covers past"):
        return ["cause: so many polygons lie one on another that the lists of those that cover a place are too long together",
                "mend: cut the layer up by an attribute, so that fewer polygons overlap"]
    return ["cause: this note is not known to this tool; docs/FORMATS.md has all notes"]


def cut_up():
    return ["mend: cut the layer up by an attribute (ogr2ogr -where), or by boxes (ogr2ogr -spat)"]


def text_of(path):
    with open(path, "rb") as file:
        return file.read().removeprefix(b"\xef\xbb\xbf").decode("utf-8", "surrogateescape")


def records_of(path):
    """The records of a CSV that are not blank, each with the line of the file on which it begins."""
    csv.field_size_limit(2 ** 31 - 1)
    reader = csv.reader(io.StringIO(text_of(path), newline=""))
    start, found = 1, []
    for record in reader:
        if record:
            found.append((start, record))
        start = reader.line_num + 1
    return found


def pieces_of(case):
    """The features of a layer as they are written, whatever is wrong with them."""
    if case.form == "lines":
        lines = text_of(case.path).split("\n")
        return [Piece(number, number, str(number), line) for number, line in enumerate(lines, 1) if line.strip(WHITE)]
    records = records_of(case.path)
    names = [name.lower() for name in records[0][1]]
    column, id_column = names.index("wkt"), names.index("id") if "id" in names else -1
    return [Piece(number, line, field(record, id_column, str(number)), field(record, column, ""))
            for number, (line, record) in enumerate(records[1:], 1)]


def field(record, at, otherwise):
    return record[at] if 0 <= at < len(record) else otherwise


def named(name):
    """A feature's id as it is shown."""
    return quoted(cut(name))


def decimals(scale):
    return f"{scale} decimal{'' if scale == 1 else 's'}"


def cut(text):
    """A text as it is shown: without its end where it is long, and with a mark for each byte that is no UTF-8."""
    text = text[:LONGEST_SHOWN + 1].encode("utf-8", "surrogateescape").decode("utf-8", "replace")
    return text if len(text) <= LONGEST_SHOWN else text[:LONGEST_SHOWN - 3] + "..."


def of_header(case):
    records = records_of(case.path)
    header = records[0][1] if records else []
    lines = [f"what: the header is {', '.join(map(repr, map(cut, header)))}" if header else "what: the file has no header"]
    if len(header) == 1 and (";" in header[0] or "\t" in header[0]):
        return lines + ["cause: the fields stand between semicolons or tabs; locate reads commas", "mend: write the table with commas"]
    return lines + ["cause: the column of the geometry has another name, or the export left the geometry out",
                    "mend: name the column `wkt`; ogr2ogr needs -lco GEOMETRY=AS_WKT",
                    f"mend: {case.import_command('')}"]


def of_place(case, number, fault):
    """What is wrong in one line or row."""
    if fault in ("too many features", "too many points"):
        most = MOST_FEATURES if fault == "too many features" else MOST_POINTS
        what = "features" if fault == "too many features" else "ring points"
        return [f"cause: a layer has at most {most} {what}", *cut_up()]
    piece = next(piece for piece in pieces_of(case) if piece.number == number)
    line = f"line {number}" if case.form == "lines" else f"row {number}, which begins on line {piece.line} of the file"
    lines = [f"where: {line}, feature {named(piece.name)}"]
    if fault == "fields":
        return lines + of_fields(case, number)
    if fault == "id not UTF-8":
        return lines + ["cause: the attributes are in another code, mostly Latin-1 or CP1252",
                        f"mend: iconv -f latin1 -t utf-8 {shlex.quote(str(case.path))} >{case.out('utf8')}"]
    if fault == "id too long":
        return lines + [f"what: the id has {len(piece.name.encode('utf-8', 'surrogateescape'))} bytes, and at most {LONGEST_ID} are read",
                        "mend: take another column as the id: " + case.import_command("--id COLUMN")]
    return lines + of_text(case, piece, fault)


def of_fields(case, number):
    records = records_of(case.path)
    return [f"what: the row has {len(records[number][1])} fields, and the header has {len(records[0][1])}",
            "cause: GDAL writes such rows of a layer without attributes; else a comma stands in a field without quotes",
            "mend: " + case.import_command("")]


def of_text(case, piece, fault):
    of_number, of_ring = OF_NUMBER.fullmatch(fault), OF_RING.fullmatch(fault)
    if of_number:
        return of_numbers(case, piece, int(of_number[1]), of_number[2])
    if of_ring:
        return of_rings(case, piece, int(of_ring[1]), of_ring[2])
    start = f"what: the text begins {cut(piece.text.strip(WHITE))!r}"
    if fault == "dimension":
        return [start, "cause: the points have heights or measures", "mend by dropping them: " + case.import_command(f"--scale {case.scale}")]
    if fault == "tag" and piece.text.upper().lstrip(WHITE).startswith(("CURVE", "MULTISURFACE")):
        return [start, "cause: the polygon has curved sides", "mend by making them straight, with GDAL from the source of the layer: tools/import SOURCE OUT.csv"]
    if case.form == "lines" and (fault == "tag" or '"' in piece.text):
        return [start, "cause: the layer is a CSV, which is read as lines; or the line is no POLYGON and no MULTIPOLYGON",
                "mend: say --form csv, or leave out what is no polygon"]
    if fault == "tag":
        return [start, "cause: the row is no POLYGON and no MULTIPOLYGON, or a number of the coordinate system stands before it",
                "mend by leaving out points and lines: " + case.import_command(""),
                "mend in PostGIS: say ST_AsText in place of ST_AsEWKT"]
    if re.fullmatch("[0-9A-Fa-f]{20,}", piece.text.strip(WHITE)):
        return [start, "cause: this is the geometry in the bytes of PostGIS", "mend: ST_AsText(geom) in place of geom"]
    return [start, "cause: the text is cut off, or was written by hand", "mend: write the layer again: " + case.import_command("")]


def place_in_text(text, number):
    """In words, where number `number` of a geometry text stands; rings and points count from 1."""
    rings, points = 0, 0
    for found in re.finditer(r"\(\s*(?=[-+.0-9])|,\s*(?=[-+.0-9])|" + NUMBER.pattern, text):
        sign = found[0][0]
        if sign == "(":
            rings, points, numbers = rings + 1, 1, 0
        elif sign == ",":
            points, numbers = points + 1, 0
        else:
            number, numbers = number - 1, numbers + 1
            if number == 0:
                return f"the {'x' if numbers == 1 else 'y'} of point {points} of ring {rings}"
    return "the number"


def of_numbers(case, piece, number, fault):
    word = NUMBER.findall(piece.text)[number - 1]
    lines = [f"what: {place_in_text(piece.text, number)} is {cut(word)}"]
    words = [each for other in pieces_of(case) for each in NUMBER.findall(other.text)]
    off_grid = sum(grid_value(each, case.scale) == "off grid" for each in words)
    needed = next((scale for scale in range(LARGEST_SCALE + 1) if not any(grid_value(each, scale) == "off grid" for each in words)), None)
    most = next((scale for scale in range(LARGEST_SCALE, -1, -1)
                 if not any(layer_text.rounded(each, scale) is None for each in words)), None)
    if fault == "off grid":
        lines += [f"what: {off_grid} of {len(words)} numbers have more than {decimals(case.scale)}",
                  "cause: the tool that wrote the layer writes all digits that it has, and the scale is smaller"]
    else:
        lines.append(f"cause: the number times 10^{case.scale} is past 10^18")
    if most is None:
        return lines + ["mend: a number is past 10^18 itself: look whether the coordinates are right"]
    if needed is not None and needed <= most:
        lines.append(f"mend: say --scale {needed}, which holds all numbers as they are written")
        if fault == "out of range":
            return lines
    elif fault == "out of range":
        lines.append(f"what: the largest scale at which all numbers are in range is {most}, and some have more decimals: round them")
    return lines + [f"mend by rounding: {case.import_command(f'--scale {min(case.scale, most)}')}"]


def of_rings(case, piece, number, fault):
    ring = re.findall(r"\([^()]*\)", piece.text)[number - 1]
    words = NUMBER.findall(ring)
    points = list(zip(words[0::2], words[1::2]))
    if fault == "short":
        return [f"what: ring {number} has {len(points)} points, and a ring has at least four, of which the last equals the first",
                "cause: the text was written or cut by hand, or a small ring collapsed where it was rounded",
                f"mend by dropping rings that collapse: {case.import_command(f'--scale {case.scale}')}"]
    first, last = points[0], points[-1]
    ends = [[grid_value(word, case.scale) for word in point] for point in (first, last)]
    far = distance(squares(*ends), case.scale)
    return [f"what: ring {number} begins at {' '.join(first)} and ends at {' '.join(last)}, {far} away",
            "cause: the ring was not closed where it was drawn, or its last point is missing",
            f"mend by drawing the missing side, if that is right: {case.import_command(f'--scale {case.scale} --close')}"]


def squares(p, q):
    """The square of the distance of two points, as a fraction of whole numbers."""
    return (p[0] - q[0]) ** 2 + (p[1] - q[1]) ** 2, 1


def to_edge(p, edge):
    """The square of the distance of a point from an edge, as a fraction of whole numbers."""
    a, b = edge
    length = squares(a, b)[0]
    along = (p[0] - a[0]) * (b[0] - a[0]) + (p[1] - a[1]) * (b[1] - a[1])
    if along <= 0:
        return squares(p, a)
    if along >= length:
        return squares(p, b)
    return layer_text.turn(a, b, p) ** 2, length


def size(first, second):
    """The square of how large a conflict is: of the least distance of an end of one edge from the other edge. A corner that lies on an
    edge has the size 0."""
    found = [to_edge(p, second) for p in first] + [to_edge(p, first) for p in second]
    best = found[0]
    for other in found[1:]:
        if other[0] * best[1] < best[0] * other[1]:
            best = other
    return best


def distance(square, scale):
    """A distance by its square, in the unit of the layer and rounded up to three digits."""
    return written(units(square), scale + MORE_DIGITS)


def units(square):
    """The root of a square, rounded up, in units of 1/10^MORE_DIGITS of a unit of the scale."""
    over, under = square
    value = math.isqrt(over * 10 ** (2 * MORE_DIGITS) // under)
    return value if value * value * under == over * 10 ** (2 * MORE_DIGITS) else value + 1


def written(value, scale, digits=3):
    """A value times 10^scale as a decimal, rounded up to so many digits."""
    step = 10 ** max(len(str(value)) - digits, 0)
    text = printed(-(-value // step) * step, scale)
    return text.rstrip("0").rstrip(".") if "." in text else text


def of_conflicts(case):
    layer = layer_text.read_layer(case.path, case.scale, case.form)
    edges, owners, found = conflicts.crossings(*layer_text.edges_of(layer))
    sizes = [units(size(edges[first], edges[second])) for first, second, _ in found]
    at = shown_first(case, edges, found)
    kinds = [kind_of(owners[first], owners[second], large) for (first, second, _), large in zip(found, sizes)]
    features = {number for first, second, _ in found for number in (*owners[first], *owners[second])}
    return [*of_pair(case, layer, edges, owners, found[at], sizes[at]),
            f"cause: {KINDS[kinds[at]]}",
            f"conflicts: {len(found)}, on {len(features)} of {len(layer.features)} features",
            *[f"  {count} of them: {KINDS[kind]}" for kind, count in Counter(kinds).most_common() if len(set(kinds)) > 1],
            f"rules: {rules_told(case, layer)}",
            f"sizes: {sizes_told(sizes, case.scale)}",
            f"scales: {at_scales(edges, case.scale, len(found))}",
            *mends(case, edges, sizes, kinds)]


def rules_told(case, layer):
    """Which features break a rule of the standard by themselves."""
    try:
        found = breaches.of_layer(case.path, case.scale, case.form, layer)
    except Ending as ending:
        return f"the features are not judged by themselves: {ending}"
    if not found:
        return "each feature by itself keeps those of the standard"
    return f"{len(found)} of {len(layer.features)} features by themselves break one of the standard; the first: {found[0].line}"


KINDS = {
    "itself": "a polygon crosses itself",
    "rounding": "rounding, or noise in the last digits, brought a corner to the other side of an edge close by",
    "overlap": "two polygons overlap: a border was drawn twice, and not alike; or the polygons truly overlap",
}


def kind_of(owners, others, large):
    if set(owners) & set(others):
        return "itself"
    return "rounding" if large <= UNITS_OF_ROUNDING * 10 ** MORE_DIGITS else "overlap"


def shown_first(case, edges, found):
    """The number of the conflict that the note shows."""
    note = CONFLICT.fullmatch(case.note)
    for at, (first, second, _) in enumerate(found):
        if note[1] == layer_text.printed_edge(edges[first], case.scale) and note[2] == layer_text.printed_edge(edges[second], case.scale):
            return at
    return 0


def of_pair(case, layer, edges, owners, found, large):
    first, second, _ = found
    word = "line" if case.form == "lines" else "row"
    lines = []
    for which, number in (("first", first), ("second", second)):
        ends = [" ".join(printed(value, case.scale) for value in point) for point in edges[number]]
        names = ", ".join(f"{named(layer.features[owner].name)} ({word} {layer.features[owner].place})" for owner in owners[number])
        lines.append(f"{which} edge: from {ends[0]} to {ends[1]}, a side of {names}")
    return lines + [f"distance: {written(large, case.scale + MORE_DIGITS)} from the other edge is the nearest of the four ends"]


def sizes_told(sizes, scale):
    """How many conflicts there are up to each power of ten, or of a thousand where these are many, and the largest."""
    counts = Counter(len(str(large)) if large else 0 for large in sizes)
    if len(counts) > MOST_SIZES:
        counts = Counter(-(-len(str(large)) // 3) * 3 if large else 0 for large in sizes)
    parts = []
    for digits in sorted(counts):
        bound = written(10 ** digits, scale + MORE_DIGITS) if digits else "0"
        parts.append(f"{counts[digits]} {'of' if digits == 0 else 'below'} {bound}")
    return f"{', '.join(parts)}; the largest is {written(max(sizes), scale + MORE_DIGITS)}"


def at_scales(edges, scale, here):
    """How many conflicts there are at this scale and at smaller ones."""
    parts, looked_at = [f"{here} conflict{'' if here == 1 else 's'} at {decimals(scale)}"], 0
    for smaller in range(scale - 1, -1, -1):
        looked_at += len(edges)
        if looked_at > MOST_EDGES:
            parts.append("smaller scales were not tried, since the layer is large")
            break
        rounded = rounded_edges(edges, 10 ** (scale - smaller))
        parts.append(f"{len(conflicts.crossings(rounded, [()] * len(rounded))[2])} at {smaller}")
        if 2 * len(rounded) < len(edges):
            parts.append("where more than half of the edges collapse")
            break
    return ", ".join(parts)


def rounded_edges(edges, step):
    """The edges at a smaller scale, in order, without those that collapse."""
    half = step // 2
    places = {}
    for edge in edges:
        for point in edge:
            if point not in places:
                places[point] = tuple((value + half) // step if value >= 0 else -((half - value) // step) for value in point)
    pairs = ((places[a], places[b]) for a, b in edges)
    return sorted({(a, b) if a < b else (b, a) for a, b in pairs if a != b})


def mends(case, edges, sizes, kinds):
    """The commands that mend the conflicts: those that are small by themselves, and what is left by leaving out features."""
    heights = [y for edge in edges for _, y in edge]
    extent = max(edges[-1][0][0] - edges[0][0][0], max(heights) - min(heights)) * 10 ** MORE_DIGITS
    small = [large for large in sizes if large * SMALL <= extent]
    lines = []
    if small:
        within = max(max(small), UNITS_OF_ROUNDING * 10 ** MORE_DIGITS)
        more = f" --within {written(within, case.scale + MORE_DIGITS, digits=2)}"
        of_them = "" if len(small) == len(sizes) else f" {len(small)} of them"
        lines.append(f"mend{of_them}: {case.command('mend', more)}")
    if "rounding" in kinds and case.has_finer:
        lines.append("mend by more decimals, if the source of the layer has them: tools/import SOURCE OUT.csv --scale auto")
    if any(kind == "itself" and large * SMALL > extent for kind, large in zip(kinds, sizes)):
        lines.append("mend of a polygon that crosses itself by much: PostGIS' ST_MakeValid(geom), before it is imported")
    if len(small) < len(sizes):
        lines.append("mend by leaving out a few polygons, if they truly overlap: "
                     f"tools/faults {case.words().replace(' {}', '')} --drop {case.out('rest')}")
    return lines
