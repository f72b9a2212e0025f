"""What the tests of the tools share: runs of a tool, and rows that hold or do not hold."""
import importlib.machinery
import importlib.util
import os
import subprocess
import sys
from pathlib import Path

import locate_program

TOOLS = Path(__file__).resolve().parent
TOP = TOOLS.parent
# What a run takes at most, in seconds.
MOST = 300


class Rows:
    """Counts rows, and prints those that do not hold."""

    def __init__(self):
        self.held = self.failed = 0

    def same(self, name, found, wanted):
        if found == wanted:
            self.held += 1
        else:
            self.failed += 1
            print(f"{name}:\n  found  {found!r}\n  wanted {wanted!r}")

    def holds(self, name, truth, found=""):
        self.same(name, (bool(truth), "" if truth else found), (True, ""))

    def refuses(self, name, done, status, part):
        """A run that ends with a status and with one line that has `part`."""
        notes = done[2]
        one_line = notes.endswith("\n") and notes.count("\n") == 1 and "Traceback" not in notes
        self.holds(name, done[0] == status and one_line and part in notes, done)

    def end(self, what):
        """Says what was tried, and ends the process."""
        print(f"{what}: {self.held} rows hold" + (f", {self.failed} do not hold" if self.failed else ""))
        sys.exit(1 if self.failed else 0)


def numbers(about, *usual):
    """The whole numbers behind the name of a test, with the usual ones where they are left out. The test ends where it is asked for help, or given other words."""
    given = sys.argv[1:]
    if given in (["-h"], ["--help"]):
        print(about.strip())
        sys.exit()
    if len(given) > len(usual) or not all(word.isascii() and word.isdecimal() for word in given):
        most = f"at most {len(usual)} whole number{'s' if len(usual) > 1 else ''}" if usual else "no words"
        print(f"{Path(sys.argv[0]).name}: it takes {most} (--help tells the words)", file=sys.stderr)
        sys.exit(2)
    return [*map(int, given), *usual[len(given):]]


def run(tool, *words, given=b"", **how):
    """The status of a tool, and what it writes on standard output and on standard error."""
    streams = {"stdout": subprocess.PIPE, "stderr": subprocess.PIPE, **how}
    done = subprocess.run([sys.executable, TOOLS / tool, *map(str, words)], input=given, timeout=MOST, **streams)
    return done.returncode, (done.stdout or b"").decode("utf-8", "surrogateescape"), (done.stderr or b"").decode("utf-8", "replace")


def into_full(tool, *words):
    """A run whose standard output is a full disk."""
    with open("/dev/full", "w") as full:
        return run(tool, *words, stdout=full)


def into_closed_pipe(tool, *words):
    """A run of whose standard output one line is read before it is closed."""
    with subprocess.Popen([sys.executable, TOOLS / tool, *map(str, words)], stdout=subprocess.PIPE, stderr=subprocess.PIPE) as child:
        child.stdout.readline()
        child.stdout.close()
        notes = child.stderr.read().decode()
        return child.wait(timeout=MOST), "", notes


def without_program(tool, *words):
    """A run where the program is not found."""
    return run(tool, *words, env={**os.environ, "LOCATE": "/none/locate"})


def module_of(tool):
    """A tool as a module."""
    loader = importlib.machinery.SourceFileLoader(f"tool_{tool}", str(TOOLS / tool))
    module = importlib.util.module_from_spec(importlib.util.spec_from_loader(loader.name, loader))
    loader.exec_module(module)
    return module


def built_program():
    """Lets the script build the program, where it must, before any row is run."""
    done = locate_program.run(["check", TOP / "examples" / "parcels.wkt", "--scale", "0"])
    if done.status:
        sys.exit(f"the program does not run: {done.note}")
