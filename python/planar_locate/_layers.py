"""Layers and index files, and the questions that are asked of them."""
from __future__ import annotations

import csv
import io
import os
import re
import tempfile
import weakref
from pathlib import Path
from typing import TYPE_CHECKING, Any, Iterable, List, NamedTuple, Sequence, Tuple, Union

from ._answers import UNREAD, Answer, AnswerArrays, Known
from ._errors import LocateError, ReadFailed, Refused, Unread
from ._points import Point, blocks_of
from ._program import Blocks, run, run_points

if TYPE_CHECKING:
    import numpy

IS_TEXT = re.compile(r"\s*(?:multi)?polygon|.*\n", re.IGNORECASE | re.DOTALL)
MAGIC = b"LOCINDEX"


class Counts(NamedTuple):
    """How many features, corners and edges a layer has."""
    features: int
    corners: int
    edges: int


class IndexCounts(NamedTuple):
    """How many features, corners, edges and nodes an index file has."""
    features: int
    corners: int
    edges: int
    nodes: int


def numbers_in(line: str) -> List[int]:
    return [int(word) for word in re.findall(r"\d+", line)]


class Asked:
    """Where points can be asked: a layer or an index file."""

    scale: int
    path: str

    def _question(self) -> Sequence[object]:
        raise NotImplementedError

    def _codes(self, points: Iterable[Any], round: bool, errors: str) -> "Tuple[Known, Union[List[int], numpy.ndarray]]":
        """The different answers, and for each point the number of its own: in an array where the points are in one, else in a list."""
        if errors not in ("raise", "coerce"):
            raise ValueError(f"errors is 'raise' or 'coerce', not {errors!r}")
        known = Known()
        is_array = hasattr(points, "__array_interface__")
        pieces = run_points(self._question(), Blocks(blocks_of(points, self.scale, round), is_array), self.path)
        codes = known.take_array(pieces) if is_array else known.take(pieces)
        try:
            count = len(points)  # type: ignore[arg-type]
        except TypeError:
            count = len(codes)
        if len(codes) != count:
            raise LocateError(f"{self.path}: {len(codes)} answers for {count} points")
        if errors == "raise" and b"unread" in known:
            unread = known[b"unread"]
            numbers = list(codes)
            first = numbers.index(unread)
            raise Unread(first, points[first] if hasattr(points, "__getitem__") else None, numbers.count(unread))
        return known, codes

    def ask(self, points: Iterable[Point], *, round: bool = False, errors: str = "raise") -> List[Answer]:
        """Where each point lies.

        Args:
            points: pairs (x, y) in the unit of the layer, of int, float, str or Decimal; or a numpy array of two columns. A float stands for
                the shortest decimal number that reads back as it.
            round: rounds numbers with more decimals than the scale, halves away from zero.
            errors: `raise`, or `coerce`, with which a point that cannot be read at the scale is answered `unread`.

        Returns:
            An answer for each point, in order.

        Raises:
            Unread: a point cannot be read at the scale, and errors is `raise`.
            Refused: the layer or the index file is refused.
            ReadFailed, NoMemory, ProgramNotFound: as they say.
            TypeError: a point is no pair of numbers.
        """
        known, codes = self._codes(points, round, errors)
        return list(map(known.answers.__getitem__, codes if isinstance(codes, list) else codes.tolist()))

    def ask_arrays(self, x: Any, y: Any, *, round: bool = False, errors: str = "raise") -> AnswerArrays:
        """Where each point lies, by arrays: for millions of points.

        Args:
            x, y: numpy arrays of numbers, or what numpy makes such of, of the same length and in the unit of the layer.
            round, errors: as for `ask`.

        Returns:
            Arrays of places, numbers and tuples of ids.

        Raises:
            what `ask` raises.
            ValueError: x and y are not of the same length.
        """
        import numpy

        known, at = self._codes(numpy.column_stack([x, y]), round, errors)
        answers = known.answers or [UNREAD]

        def tuples(found: List[Tuple[str, ...]]) -> "numpy.ndarray":
            column = numpy.empty(len(found), dtype=object)
            column[:] = found
            return column[at]

        return AnswerArrays(
            numpy.array([answer.place for answer in answers])[at],
            numpy.array([-1 if answer.number is None else answer.number for answer in answers], dtype=numpy.int64)[at],
            tuples([answer.on for answer in answers]),
            tuples([answer.covered_by for answer in answers]))


class Layer(Asked):
    """A layer of polygons: the name of a file, a text, or polygons with their ids.

    Args:
        source: the name of a file, a str or a path; a text of polygons, a line each, or of a CSV; or an iterable of pairs (id, text of a
            polygon), both str. A str is taken for a text where it begins with POLYGON or MULTIPOLYGON or holds a line end.
        scale: how many decimals a coordinate may have, 0 to 15. Nothing is rounded.
        form: `lines` or `csv`, for a file and a text. Pairs are always a CSV.

    Nothing is read before `check`, `build` or `ask`. A text and pairs are kept in a temporary file as long as the layer is.
    """

    def __init__(self, source: Union[str, "os.PathLike[str]", Iterable[Tuple[str, str]]], scale: int, form: str = "lines"):
        if form not in ("lines", "csv"):
            raise ValueError(f"form is 'lines' or 'csv', not {form!r}")
        self.scale, self.form = scale, form
        if isinstance(source, (str, os.PathLike)) and not (isinstance(source, str) and IS_TEXT.match(source)):
            self.path = os.fspath(source)
            return
        if not isinstance(source, str):
            source, self.form = csv_text(source), "csv"
        handle, self.path = tempfile.mkstemp(prefix="planar_locate_", suffix="." + self.form)
        weakref.finalize(self, remove, self.path)
        with open(handle, "w", encoding="utf-8", newline="") as file:
            file.write(source)

    def __repr__(self) -> str:
        return f"Layer({self.path!r}, scale={self.scale}, form={self.form!r})"

    def _options(self) -> List[object]:
        return ["--scale", self.scale, "--form", self.form]

    def _question(self) -> Sequence[object]:
        return ["query", self.path, "/dev/stdin", *self._options()]

    def check(self) -> Counts:
        """Reads the layer, and counts its features, corners and edges.

        Raises:
            Refused: a line is at fault, or two edges conflict; `line` and `cause` tell which.
            ReadFailed, BadWords, NoMemory, ProgramNotFound: as they say.
        """
        return Counts(*numbers_in(run(["check", self.path, *self._options()], self.path)))

    def build(self, path: Union[str, "os.PathLike[str]"]) -> "Index":
        """Makes the index file of the layer, and returns it.

        Raises:
            what `check` raises.
            WriteFailed: the index file cannot be written.
        """
        run(["build", self.path, os.fspath(path), *self._options()], self.path)
        return Index.open(path)


class Index(Asked):
    """An index file, which `Layer.build` made, with this program or an earlier one: the answers of its layer, without the layer."""

    def __init__(self, path: str, scale: int):
        self.path, self.scale = path, scale

    def __repr__(self) -> str:
        return f"Index({self.path!r}, scale={self.scale})"

    @classmethod
    def open(cls, path: Union[str, "os.PathLike[str]"]) -> "Index":
        """The index file of that name; its scale is read, and no more.

        Raises:
            ReadFailed: it cannot be read.
            Refused: it does not begin as an index file does.
        """
        name = os.fspath(path)
        try:
            with Path(name).open("rb") as file:
                head = file.read(16)
        except OSError as error:
            raise ReadFailed(f"{name}: {error.strerror}", 3, "read failed") from None
        if head[:8] != MAGIC or len(head) < 16:
            raise Refused(f"{name}: index: bad magic", 1, "index: bad magic")
        return cls(name, int.from_bytes(head[12:], "big"))

    def _question(self) -> Sequence[object]:
        return ["ask", self.path, "/dev/stdin"]

    def verify(self) -> IndexCounts:
        """Judges the file: it is a true index of its own corners, edges and polygons, and its features, corners, edges and nodes are
        counted.

        Raises:
            Refused: it is none; `cause` tells the first flaw.
            ReadFailed, NoMemory, ProgramNotFound: as they say.
        """
        return IndexCounts(*numbers_in(run(["verify", self.path], self.path)))


def query(layer: Layer, points: Iterable[Point], *, round: bool = False, errors: str = "raise") -> List[Answer]:
    """Where each point lies in a layer: see `Layer.ask`. Who asks a layer more than once builds its index first."""
    return layer.ask(points, round=round, errors=errors)


def csv_text(rows: Iterable[Tuple[str, str]]) -> str:
    """A CSV of ids and polygons.

    Raises:
        ValueError: an id holds a line end, which would break the answers.
    """
    out = io.StringIO()
    writer = csv.writer(out, lineterminator="\n")
    writer.writerow(["id", "wkt"])
    for name, text in rows:
        if "\n" in str(name):
            raise ValueError(f"an id holds a line end: {name!r}")
        writer.writerow([str(name), text])
    return out.getvalue()


def remove(path: str) -> None:
    try:
        os.remove(path)
    except OSError:
        pass
