"""Where the tools find the program `locate`, and how they run it.

The program is the first of these: what the environment variable LOCATE names; the one that the script `locate` runs, at the top of the
repository in which the tools stand; the command `planar-locate` on the PATH.
"""
import functools
import os
import shutil
import subprocess
import threading
from pathlib import Path
from typing import NamedTuple

from endings import NO_MEMORY, READ_FAILED, WRITE_FAILED, Ending

SCRIPT = Path(__file__).resolve().parent.parent / "locate"
COMMAND = "planar-locate"


class Run(NamedTuple):
    """What a run of the program ended with: its status, its standard output as bytes, and its note without the end of the line."""
    status: int
    output: bytes
    note: str


@functools.lru_cache(maxsize=None)
def program():
    """The name of the program; `Ending` with status 3 where there is none."""
    named = os.environ.get("LOCATE")
    if named:
        if not shutil.which(named):
            raise Ending(READ_FAILED, f"the environment variable LOCATE names {named}, which is no program")
        return named
    if os.access(SCRIPT, os.X_OK):
        return program_of_script()
    found = shutil.which(COMMAND)
    if not found:
        raise Ending(READ_FAILED, f"the program is not found: set LOCATE to its name, or put {COMMAND} on the PATH")
    return found


def program_of_script():
    """The program that the script runs. It is built first where it must be, and the script says on standard error how far that is."""
    done = subprocess.run([SCRIPT, "--program"], stdin=subprocess.DEVNULL, stdout=subprocess.PIPE, text=True)
    name = done.stdout.strip()
    if done.returncode or not name:
        raise Ending(READ_FAILED, f"{SCRIPT} has no program to run")
    return name


def start(words, **streams):
    """A process of the program with these words; its standard error is a pipe."""
    name = program()
    try:
        return subprocess.Popen([name, *map(str, words)], stderr=subprocess.PIPE, **streams)
    except OSError as error:
        raise Ending(READ_FAILED, f"{name} cannot be run: {error.strerror}") from None


class Notes:
    """The notes of a process, collected while it runs."""

    def __init__(self, process):
        self.lines = []
        self.thread = threading.Thread(target=self.collect, args=[process.stderr], daemon=True)
        self.thread.start()

    def collect(self, stream):
        self.lines += [line.decode("utf-8", "replace").rstrip("\n") for line in stream]

    def text(self):
        """The note, once the process has ended."""
        self.thread.join()
        return "\n".join(self.lines)


def run(words, given=None):
    """Runs the program to its end, with the bytes `given` on its standard input."""
    process = start(words, stdin=subprocess.DEVNULL if given is None else subprocess.PIPE, stdout=subprocess.PIPE)
    notes = Notes(process)
    feeder = threading.Thread(target=feed, args=[process.stdin, given or b""], daemon=True)
    feeder.start()
    output = process.stdout.read()
    return Run(process.wait(), output, notes.text())


def feed(stream, given):
    """Writes bytes to a process, which may end before it has read them all."""
    if stream is None:
        return
    try:
        stream.write(given)
        stream.close()
    except OSError:
        pass


def ending_of(status, note):
    """How a tool ends where the program ended with this status and note."""
    if status < 0:
        return Ending(NO_MEMORY, f"the program was killed by signal {-status}; mostly this is want of memory")
    if status not in range(1, NO_MEMORY + 1) or status == WRITE_FAILED:
        return Ending(WRITE_FAILED, f"the program ended with status {status}: {note}")
    return Ending(status, note)


def check(layer, scale, form):
    """The run of `check` on a layer."""
    return run(["check", layer, "--scale", scale, "--form", form])
