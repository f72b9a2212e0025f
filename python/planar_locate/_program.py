"""Finds the program and runs it."""
from __future__ import annotations

import os
import shutil
import subprocess
import tempfile
import threading
from functools import lru_cache
from pathlib import Path
from typing import IO, Iterator, Optional, Sequence, Union

from ._errors import ProgramNotFound, error_of

COMMAND = "planar-locate"
SCRIPT = Path(__file__).resolve().parents[2] / "locate"
# The points text of one run has at most so many bytes.
LONGEST_POINTS = 2 ** 28
CHUNK = 2 ** 20
# Linux's number for making a pipe wider, which spares waiting; Python 3.9 has no name for it.
SET_PIPE_SIZE = 1031


def find_program() -> str:
    """The name of the program: what the environment variable LOCATE names; else what the script `locate` runs, of the repository in which
    this package stands; else the command `planar-locate` on the PATH.

    Raises:
        ProgramNotFound: there is none of these.
    """
    named = os.environ.get("LOCATE")
    if named:
        if not shutil.which(named):
            raise ProgramNotFound(f"the environment variable LOCATE names {named}, which is no program")
        return named
    if stands_in_repository() and os.access(SCRIPT, os.X_OK):
        return program_of(str(SCRIPT))
    found = shutil.which(COMMAND)
    if not found:
        raise ProgramNotFound(f"the program is not found: set LOCATE to its name, or put {COMMAND} on the PATH")
    return found


def stands_in_repository() -> bool:
    """Whether the package stands in the folder python of the repository, and not where packages are installed."""
    return SCRIPT.is_file() and (SCRIPT.parent / "crates.txt").is_file() and (SCRIPT.parent / "python" / "pyproject.toml").is_file()


@lru_cache(maxsize=None)
def program_of(script: str) -> str:
    """The program that the script runs. It is built first where it must be, and the script says on standard error how far that is."""
    done = subprocess.run([script, "--program"], stdin=subprocess.DEVNULL, stdout=subprocess.PIPE, text=True)
    name = done.stdout.strip()
    if done.returncode or not name:
        raise ProgramNotFound(f"{script} has no program to run")
    return name


class Notes:
    """The standard error of a process, collected while it runs."""

    def __init__(self, process: "subprocess.Popen[bytes]"):
        self._text = b""
        self._thread = threading.Thread(target=self._collect, args=[process.stderr], daemon=True)
        self._thread.start()

    def _collect(self, stream: IO[bytes]) -> None:
        self._text = stream.read()

    def text(self) -> str:
        self._thread.join()
        return self._text.decode("utf-8", "replace").rstrip("\n")


def start(words: Sequence[object], stdin: Union[int, IO[bytes]]) -> "subprocess.Popen[bytes]":
    name = find_program()
    try:
        return subprocess.Popen([name, *map(str, words)], stdin=stdin, stdout=subprocess.PIPE, stderr=subprocess.PIPE)
    except OSError as error:
        raise ProgramNotFound(f"{name} cannot be run: {error.strerror}") from None


def run(words: Sequence[object], name: str) -> str:
    """What the program writes on standard output; `name` is the file that errors name."""
    with start(words, subprocess.DEVNULL) as process:
        notes = Notes(process)
        assert process.stdout
        output = process.stdout.read()
    if process.returncode:
        raise error_of(process.returncode, notes.text(), name)
    return output.decode()


def widen(pipe: IO[bytes]) -> None:
    """Lets a pipe hold a megabyte, where the system can."""
    try:
        import fcntl
        fcntl.fcntl(pipe, SET_PIPE_SIZE, CHUNK)
    except (ImportError, OSError):
        pass


class Blocks:
    """Blocks of the points text, each of whole lines, one after another; a block that is too much for a run is put back. `is_quick` says that
    they are made so quickly that the program need not begin before the last of a run is made."""

    def __init__(self, blocks: Iterator[bytes], is_quick: bool = False):
        self._blocks = blocks
        self.is_quick = is_quick
        self._next: Optional[bytes] = None
        self.failure: Optional[BaseException] = None

    def peek(self) -> Optional[bytes]:
        """The next block, or None behind the last."""
        if self._next is None:
            self._next = next(self._blocks, None)
        return self._next

    def of_a_run(self) -> Iterator[bytes]:
        """The next blocks, as many as one run may have. Each is gone once the one behind it is asked for."""
        room = LONGEST_POINTS
        while True:
            block = self.peek()
            if block is None or len(block) > room:
                return
            room -= len(block)
            yield block
            self._next = None

    def feed(self, process: "subprocess.Popen[bytes]") -> None:
        """Writes the blocks of a run to a process. What goes wrong while points are taken ends the process."""
        assert process.stdin
        try:
            for block in self.of_a_run():
                process.stdin.write(block)
            process.stdin.close()
        except OSError:
            pass
        except BaseException as failure:  # raised again where the answers are read
            self.failure = failure
            process.kill()

    def file(self) -> IO[bytes]:
        """A file that holds the blocks of a run, in memory where the system can: the program reads it with less work than a pipe."""
        found = open(os.memfd_create("points"), "w+b") if hasattr(os, "memfd_create") else tempfile.TemporaryFile()
        for block in self.of_a_run():
            found.write(block)
        found.seek(0)
        return found


def run_points(words: Sequence[object], blocks: Blocks, name: str) -> Iterator[bytes]:
    """Answers for all blocks, in pieces of whole lines; a run of the program for each 2^28 bytes of the points text."""
    while True:
        yield from run_once(words, blocks, name)
        if blocks.peek() is None:
            return


def run_once(words: Sequence[object], blocks: Blocks, name: str) -> Iterator[bytes]:
    if not blocks.is_quick:
        process = start(words, subprocess.PIPE)
        assert process.stdin
        widen(process.stdin)
        feeder = threading.Thread(target=blocks.feed, args=[process], daemon=True)
        feeder.start()
        yield from answers_of(process, name, feeder, blocks)
        return
    with blocks.file() as file:
        yield from answers_of(start(words, file), name, None, blocks)


def answers_of(process: "subprocess.Popen[bytes]", name: str, feeder: Optional[threading.Thread], blocks: Blocks) -> Iterator[bytes]:
    """What a process answers, in pieces of whole lines, up to its end, which must be a good one."""
    notes = Notes(process)
    assert process.stdout
    widen(process.stdout)
    ended = False
    try:
        rest = b""
        while True:
            piece = process.stdout.read1(CHUNK)  # type: ignore[attr-defined]
            if not piece:
                break
            end = piece.rfind(b"\n") + 1
            if end:
                yield rest + piece[:end]
                rest = piece[end:]
            else:
                rest += piece
        ended = True
    finally:
        if not ended:
            process.kill()
        status = process.wait()
        if feeder:
            feeder.join()
        process.stdout.close()
    if blocks.failure:
        raise blocks.failure
    if status:
        raise error_of(status, notes.text(), name)
