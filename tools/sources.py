"""Layers out of files and databases, as rows of geometry texts and attributes: a CSV with a column `wkt`, lines of geometry texts, or
whatever GDAL reads."""
import csv
import io
import os
import re
import shlex
import shutil
import subprocess
import threading
from contextlib import contextmanager
from typing import NamedTuple

import endings
from endings import READ_FAILED, REFUSED, Ending

GEOMETRY = "wkt"
ZIPPED = {".zip": "/vsizip/", ".kmz": "/vsizip/", ".gz": "/vsigzip/"}
# GDAL's own index of the points of an OpenStreetMap file refuses the negative ids of files that were edited.
SETTINGS = {"OSM_USE_CUSTOM_INDEXING": "NO"}
# How many numbers a point of a GML file has where its lists do not say so. GDAL takes three in files of some kinds whose points have two.
DIMENSION = "GML_SRS_DIMENSION_IF_MISSING"
ENVELOPE = re.compile(rb"<(?:[\w.-]+:)?lowerCorner[^<>]*>([^<>]*)</")
# How many bytes of a GML file are looked at for its envelope.
HEAD_OF_GML = 1 << 20
# What begins a file of geometry texts, and how many characters are looked at for it.
FIRST_TEXT = re.compile(r"\s*(?:MULTI)?(?:POLYGON|SURFACE|CURVEPOLYGON)\s*(?:Z|M|ZM)?\s*[(]", re.IGNORECASE)
LOOKED_AT = 1000
LISTED = re.compile(r"[0-9]+: (.*?)(?: \(title: .*\))?(?: \(([^()]*(?:\(any\))?)\))?")


# What GDAL says of a feature, and of a file that it cannot open.
OF_FEATURE = re.compile(r"Geometry of feature ([0-9]+) ?(\S*) cannot be parsed: ([^.]*)")
OF_FILE = re.compile(r"Unable to open datasource|not recognized as|Failed to read|no element found|malformed|not a database", re.IGNORECASE)
OF_SHX = re.compile(r"Unable to open \S*\.shx\b")
OF_DATABASE = re.compile(r"PQconnectdb failed|connection to server|Access denied|Can't connect", re.IGNORECASE)


class Source(NamedTuple):
    """A layer: its name, the names of its attributes, its rows, each a geometry text and the list of the attributes, and notes on how it was
    read, which are whole once the rows are."""
    name: str
    header: list
    rows: object
    notes: list


class Unreadable(Ending):
    """GDAL cannot read a source. `lines` explain why."""

    def __init__(self, path, notes):
        self.said = fault_of(notes)
        super().__init__(READ_FAILED, f"GDAL cannot read {path}: {self.said}")
        self.path = path

    def lines(self, words):
        """The lines that explain it; `words` are those of the call of tools/import."""
        again = shlex.join(["tools/import", *words])
        return [f"refused: GDAL cannot read {os.path.basename(self.path) or self.path}", *self.causes(again), f"what GDAL says: {self.said}"]

    def causes(self, again):
        """The lines on the cause and on what mends it; `again` is the call that failed."""
        feature = OF_FEATURE.search(self.said)
        if feature:
            return [f"where: feature {feature[1]}" + (f", {feature[2]}" if feature[2] else ""),
                    f"cause: the geometry of that feature is broken, or is written as GDAL does not read it ({feature[3]})",
                    "mend: repair the feature, or export the layer anew, best as GeoPackage",
                    f"mend by leaving out each such feature, if that is right: GML_SKIP_CORRUPTED_FEATURES=YES {again}"]
        if OF_SHX.search(self.said):
            return ["cause: a shapefile is several files, and the one that ends with .shx is missing",
                    "mend: put it beside the others (.shp, .shx, .dbf, .prj)",
                    f"mend by making it anew, if it is lost: SHAPE_RESTORE_SHX=YES {again}"]
        if OF_DATABASE.search(self.said):
            return ["cause: the database does not answer under that name, or does not let this user in",
                    f"mend: ask it by `ogrinfo -so {shlex.quote(self.path)}` until that lists its layers"]
        if OF_FILE.search(self.said):
            return ["cause: the file is cut off or damaged, or is of a kind that GDAL does not know here",
                    "mend: fetch it or export it anew, best as GeoPackage; `ogrinfo --formats` lists the kinds that are known"]
        return ["cause: GDAL ends in the middle of the layer: the source is damaged there, or is written as GDAL does not read it",
                f"mend: export the layer anew, best as GeoPackage; `ogrinfo -al {shlex.quote(self.path)}` shows how far GDAL comes"]


@contextmanager
def opened(path, layer):
    """The layer of a source. `Ending` where it cannot be read."""
    if os.path.isfile(path) and layer is None:
        with endings.reading(), open(path, encoding="utf-8-sig", errors="surrogateescape", newline="") as file:
            source = of_lines(path, file) or (of_records(os.path.basename(path), file, path) if path.lower().endswith(".csv") else None)
            if source:
                yield source
                return
    need_gdal(path)
    full, notes = full_name(path), []
    numbers = numbers_of_a_point(path)
    if numbers:
        notes.append(f"read: a point has {numbers} numbers, by the envelope of the file; its lists of points do not say how many")
    environment = environment_of(numbers)
    name = chosen_layer(full, path, layer, environment)
    with exported(full, name, path, environment, notes) as file:
        source = of_records(name, file, path) or Source(name, [], iter(()), [])
        yield source._replace(notes=notes)


def of_lines(path, file):
    """A file of geometry texts, one in a line, or None where the file does not begin with one. A blank line is a row without geometry."""
    start = file.read(LOOKED_AT)
    file.seek(0)
    if not FIRST_TEXT.match(start):
        return None
    return Source(os.path.basename(path), [], ((line, []) for line in file), [])


def of_records(name, file, path):
    """A CSV with a header that has a column `wkt`, or None where it has no such column."""
    csv.field_size_limit(2 ** 31 - 1)
    reader = csv.reader(file)
    try:
        header = next((record for record in reader if record), [])
    except csv.Error as error:
        raise Ending(REFUSED, f"{path} line {reader.line_num}: {error}") from None
    names = [column.strip().lower() for column in header]
    if GEOMETRY not in names:
        return None
    at = names.index(GEOMETRY)
    return Source(name, header[:at] + header[at + 1:], rows_of(reader, at, len(header), path), [])


def rows_of(reader, at, width, path):
    """The rows behind the header. GDAL writes a row without the last, empty field where a layer has no attributes."""
    try:
        for record in reader:
            if not record:
                continue
            if len(record) > width:
                raise Ending(REFUSED, f"{path} line {reader.line_num}: {len(record)} fields, but the header has {width}")
            record += [""] * (width - len(record))
            yield record[at], record[:at] + record[at + 1:]
    except csv.Error as error:
        raise Ending(REFUSED, f"{path} line {reader.line_num}: {error}") from None


def need_gdal(path):
    for command in ("ogrinfo", "ogr2ogr"):
        if not shutil.which(command):
            raise Ending(READ_FAILED, f"{path} is no CSV with a column `wkt`, and {command} is not installed, which reads other layers: "
                                      "it is in Debian's package gdal-bin")


def full_name(path):
    """The name under which GDAL reads a source; it does not look into a packed file by itself."""
    ending = os.path.splitext(path)[1].lower()
    if not os.path.exists(path) and ":" not in path and not path.startswith("/vsi"):
        raise Ending(READ_FAILED, f"read failed: {path}: No such file or directory")
    return ZIPPED.get(ending, "") + path if os.path.isfile(path) else path


def numbers_of_a_point(path):
    """How many numbers a point of a GML file has by its envelope, or None where its lists of points may say so or nothing is known."""
    if not path.lower().endswith((".gml", ".xml")) or not os.path.isfile(path):
        return None
    with endings.reading(), open(path, "rb") as file:
        head = file.read(HEAD_OF_GML)
    corner = ENVELOPE.search(head)
    if b"srsDimension" in head or not corner:
        return None
    numbers = len(corner[1].split())
    return numbers if numbers in (2, 3) else None


def environment_of(numbers):
    """What GDAL is run in; `numbers` are those of a point, where they are known."""
    settings = {**SETTINGS, **({DIMENSION: str(numbers)} if numbers else {})}
    return {**os.environ, **{name: value for name, value in settings.items() if name not in os.environ}, "LC_ALL": "C.UTF-8"}


def fault_of(notes):
    """The first error that GDAL tells, in one line, without its list of drivers."""
    lines = [line.strip().removesuffix(" with the following drivers.") for line in notes.splitlines()]
    lines = [line for line in lines if line and line != "FAILURE:" and not line.startswith(("-> ", "Warning"))]
    at = next((at for at, line in enumerate(lines) if line.startswith("ERROR")), 0)
    return " ".join(lines[at:at + 2]) or "it says no cause"


def chosen_layer(full, path, layer, environment):
    """The name of the layer that is meant: the one that is named, or the only one, or the only one that may hold polygons."""
    done = subprocess.run(["ogrinfo", "-ro", "-so", full], capture_output=True, env=environment, stdin=subprocess.DEVNULL)
    output, notes = (part.decode("utf-8", "replace") for part in (done.stdout, done.stderr))
    if done.returncode:
        raise Unreadable(path, output + notes)
    found = [LISTED.fullmatch(line) for line in output.splitlines()]
    layers = [(match[1], match[2] or "unknown") for match in found if match]
    names = [name for name, _ in layers]
    listed = ", ".join(map(repr, names))
    if layer is not None:
        if names and layer not in names:
            raise Ending(REFUSED, f"{path} has no layer {layer!r}, but {listed}")
        return layer
    if not names:
        raise Ending(REFUSED, f"{path} has no layer")
    for kinds in ([""], ["polygon"], ["polygon", "unknown", "collection", "surface", "geometry"]):
        fitting = [name for name, kind in layers if any(word in kind.lower() for word in kinds)]
        if len(fitting) == 1:
            return fitting[0]
    raise Ending(REFUSED, f"{path} has {len(names)} layers, name one by --layer: {listed}")


@contextmanager
def exported(full, name, path, environment, told):
    """The lines that GDAL writes of a layer as CSV. Where GDAL fails, that is told behind the last of them; of faults that it passes over
    there is a note in `told` then."""
    words = ["ogr2ogr", "-f", "CSV", "/vsistdout/", full, name, "-lco", "GEOMETRY=AS_WKT", "-nlt", "CONVERT_TO_LINEAR", "-dim", "XY"]
    process = subprocess.Popen(words, stdin=subprocess.DEVNULL, stdout=subprocess.PIPE, stderr=subprocess.PIPE, env=environment)
    notes = []
    listener = threading.Thread(target=lambda: notes.extend(process.stderr), daemon=True)
    listener.start()
    try:
        yield lines_of(process, listener, notes, path, told)
    finally:
        process.kill()
        process.wait()


def lines_of(process, listener, notes, path, told):
    with endings.reading():
        yield from io.TextIOWrapper(process.stdout, encoding="utf-8", errors="surrogateescape", newline="")
    listener.join()
    said = b"".join(notes).decode("utf-8", "replace")
    if process.wait():
        raise Unreadable(path, said)
    faults = [line for line in said.splitlines() if line.startswith("ERROR")]
    if faults:
        more = f", and {len(faults) - 1} more" if len(faults) > 1 else ""
        told.append(f"damaged: GDAL passed over a fault of the source, and a row may lack its geometry for it: {faults[0]}{more}")
