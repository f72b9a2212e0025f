"""Answer lines as objects."""
from __future__ import annotations

import gc
import re
from contextlib import contextmanager
from typing import TYPE_CHECKING, Dict, Iterable, Iterator, List, NamedTuple, Optional, Tuple

from ._errors import LocateError
from ._grouping import grouped

if TYPE_CHECKING:
    import numpy

LINE = re.compile(rb'(corner|border|face)(?: (\d+))?(?: on((?: "(?:[^"]|"")*")*))? in((?: "(?:[^"]|"")*")*)')
ID = re.compile(rb'"((?:[^"]|"")*)"')

# The front of the most frequent line, of a point within one polygon.
WITHIN_ONE = b'face in "'
# How many bytes of answers are looked at together.
TOGETHER = 2 ** 25


class Answer(NamedTuple):
    """Where a point lies.

    Attributes:
        place: `corner`, `border`, `face` or `unread`.
        number: the number of the corner or of the border; of the face where faces were asked for; else None.
        on: the ids of the polygons that touch the point.
        covered_by: the ids of the polygons that cover it and do not touch it.
    """
    place: str
    number: Optional[int]
    on: Tuple[str, ...]
    covered_by: Tuple[str, ...]

    @property
    def name(self) -> str:
        """The place in a word or two: `corner 8`, `border 9`, `face`, `unread`."""
        return self.place if self.number is None else f"{self.place} {self.number}"


class AnswerArrays(NamedTuple):
    """Answers as numpy arrays of the same length: see `Answer`. `number` has -1 where there is none; `on` and `covered_by` hold tuples."""
    place: "numpy.ndarray"
    number: "numpy.ndarray"
    on: "numpy.ndarray"
    covered_by: "numpy.ndarray"


UNREAD = Answer("unread", None, (), ())


def ids_of(text: Optional[bytes]) -> Tuple[str, ...]:
    return tuple(name.decode().replace('""', '"') for name in ID.findall(text or b""))


def parse_answer(line: bytes) -> Answer:
    """The answer in a line, without its end.

    Raises:
        LocateError: it is no answer line, as where an id holds a line end.
    """
    if line == b"unread":
        return UNREAD
    if line.startswith(WITHIN_ONE) and line.count(b'"') == 2:
        return Answer("face", None, (), (line[len(WITHIN_ONE):-1].decode(),))
    found = LINE.fullmatch(line)
    if not found:
        raise LocateError(f"an answer that cannot be read, as where an id holds a line end: {line.decode(errors='replace')}")
    number = None if found[2] is None else int(found[2])
    return Answer(found[1].decode(), number, ids_of(found[3]), ids_of(found[4]))


def parse_answers(lines: List[bytes]) -> List[Answer]:
    """The answers in many lines, as `parse_answer` tells each."""
    front, start = WITHIN_ONE.decode(), len(WITHIN_ONE)
    texts = b"\n".join(lines).decode().split("\n") if lines else []
    make = tuple.__new__
    return [make(Answer, ("face", None, (), (text[start:-1],))) if text.startswith(front) and text.count('"') == 2 else parse_answer(line)
            for text, line in zip(texts, lines)]


@contextmanager
def no_collection() -> Iterator[None]:
    """The collector of garbage rests: of many answers none is garbage."""
    is_collecting = gc.isenabled()
    gc.disable()
    try:
        yield
    finally:
        if is_collecting:
            gc.enable()


class Known(Dict[bytes, int]):
    """The different answer lines, each with its number; and the answers by these."""

    def __init__(self) -> None:
        super().__init__()
        self.answers: List[Answer] = []

    def __missing__(self, line: bytes) -> int:
        self[line] = len(self.answers)
        self.answers.append(parse_answer(line))
        return self[line]

    def take(self, pieces: Iterable[bytes]) -> List[int]:
        """The numbers of all lines of some pieces of whole lines, in order."""
        found: List[int] = []
        with no_collection():
            for piece in pieces:
                lines = piece.split(b"\n")
                lines.pop()
                found += map(self.__getitem__, lines)
        return found

    def take_array(self, pieces: Iterable[bytes]) -> "numpy.ndarray":
        """The same, by numpy: in an array."""
        import numpy

        with no_collection():
            found = [self._numbers(*grouped(text)) for text in joined(pieces, TOGETHER)]
        return numpy.concatenate(found) if found else numpy.empty(0, dtype=numpy.intp)

    def _numbers(self, lines: List[bytes], own: "numpy.ndarray") -> "numpy.ndarray":
        """The numbers of lines that are given by the different ones and the number of each among these."""
        import numpy

        new = [line for line in lines if line not in self] if self else lines
        self.update(zip(new, range(len(self.answers), len(self.answers) + len(new))))
        self.answers += parse_answers(new)
        if len(new) == len(self):
            return own
        return numpy.fromiter(map(self.__getitem__, lines), dtype=numpy.intp, count=len(lines))[own]


def joined(pieces: Iterable[bytes], size: int) -> Iterator[bytes]:
    """The pieces, put together to pieces of at least `size` bytes, but for the last."""
    some: List[bytes] = []
    length = 0
    for piece in pieces:
        some.append(piece)
        length += len(piece)
        if length >= size:
            yield b"".join(some)
            some, length = [], 0
    if some:
        yield b"".join(some)
