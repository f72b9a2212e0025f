"""What can go wrong, by the statuses of the program."""
from __future__ import annotations

import re
from typing import Any, Optional


class LocateError(Exception):
    """The program refused or failed.

    Attributes:
        status: the status with which the program ended, an int; None where it did not run.
        note: what it wrote on standard error, one line.
    """

    def __init__(self, message: str, status: Optional[int] = None, note: str = ""):
        super().__init__(message)
        self.status = status
        self.note = note or message


class Refused(LocateError):
    """Status 1: a text, a layer or an index file is refused.

    Attributes:
        line: the line of the layer, or its row in form csv, from 1; None where the cause has no line, as two edges that cross.
        cause: the cause alone, for example `number 5 off grid` or `edges 0 0, 4 4 and 0 4, 4 0 cross`.
    """

    def __init__(self, message: str, status: Optional[int] = 1, note: str = ""):
        super().__init__(message, status, note)
        found = re.fullmatch(r"\w+: (.*)|\w+ (?:line|row) (\d+): (.*)", self.note, re.DOTALL)
        self.line: Optional[int] = int(found[2]) if found and found[2] else None
        self.cause: str = (found[1] or found[3]) if found else self.note


class BadWords(LocateError):
    """Status 2: words that are no command, as a scale above 15."""


class ReadFailed(LocateError):
    """Status 3: a file could not be read."""


class WriteFailed(LocateError):
    """Status 4: a file could not be written."""


class NoMemory(LocateError):
    """Status 5: memory was wanting, or the program was killed."""


class ProgramNotFound(LocateError):
    """The program is neither named by LOCATE, nor in the repository, nor on the PATH."""


class Unread(LocateError, ValueError):
    """Points that cannot be read at the scale: no number, or more decimals than the scale has.

    Attributes:
        index: the place of the first of them in what was given, from 0.
        point: that point as it was given, or None where it is not kept.
        count: how many there are.
    """

    def __init__(self, index: int, point: Any, count: int):
        shown = "" if point is None else f" {point!r}"
        super().__init__(f"point {index}{shown} cannot be read at this scale, nor {count - 1} others; round=True rounds, "
                         f"errors='coerce' answers 'unread'", note="unread")
        self.index, self.point, self.count = index, point, count


BY_THE_FRONT = re.compile(r"(?:planar-)?locate: ")
BY_STATUS = {1: Refused, 2: BadWords, 3: ReadFailed, 4: WriteFailed, 5: NoMemory}


def error_of(status: int, notes: str, name: str) -> LocateError:
    """The error for a run that ended with this status and these notes; `name` is the file that it was about.

    The script and the installed command write lines of their own beside the note, which begin with their names.
    """
    if status < 0:
        return NoMemory(f"the program was killed by signal {-status}", status, notes)
    lines = notes.split("\n")
    own = [line for line in lines if not BY_THE_FRONT.match(line)]
    front = [BY_THE_FRONT.sub("", line) for line in lines if BY_THE_FRONT.match(line)]
    note = (front or lines)[0] if status == 2 else (own or lines)[0]
    kind = BY_STATUS.get(status, LocateError)
    return kind(f"{name}: {note or f'the program ended with status {status}'}", status, note)
