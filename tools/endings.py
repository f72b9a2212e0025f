"""How a tool ends: with a status of `locate`, and where it is not 0 mostly with one line on standard error.

Status 0: done; 1: a text or layer that is refused; 2: words that are no command; 3: a failed read; 4: a failed write; 5: want of
memory; 130: stopped by the keyboard.
"""
import argparse
import os
import sys
from contextlib import contextmanager

REFUSED, BAD_WORDS, READ_FAILED, WRITE_FAILED, NO_MEMORY, STOPPED = 1, 2, 3, 4, 5, 130


class Ending(Exception):
    """The tool ends with a status and a line."""

    def __init__(self, status, line):
        super().__init__(line)
        self.status = status


class Words(argparse.ArgumentParser):
    """A parser of words that says in one line what is wrong with them."""

    def error(self, message):
        self.exit(BAD_WORDS, one_line(f"{self.prog}: {message} ({self.prog} --help tells the words)") + "\n")


def one_line(text):
    return " ".join(str(text).split("\n"))


def cause(error):
    """The cause of an OSError, with the name of the file where it has one."""
    words = error.strerror or str(error)
    return words if error.filename is None else f"{os.fsdecode(error.filename)}: {words}"


@contextmanager
def reading():
    """What fails in here is a failed read."""
    try:
        yield
    except OSError as error:
        raise Ending(READ_FAILED, f"read failed: {cause(error)}") from None


@contextmanager
def writing():
    """What fails in here is a failed write; `print` to standard output belongs in here too."""
    try:
        yield
        sys.stdout.flush()
    except OSError as error:
        raise Ending(WRITE_FAILED, f"write failed: {cause(error)}") from None


def finish(main, *refusals):
    """Runs `main` and ends the process with the status that it returns. `refusals` are exceptions whose words refuse a text."""
    try:
        status, line = main(), ""
        with writing():
            pass
    except Ending as ending:
        status, line = ending.status, str(ending)
    except refusals as refusal:
        status, line = REFUSED, str(refusal)
    except OSError as error:
        status, line = READ_FAILED, f"read failed: {cause(error)}"
    except MemoryError:
        status, line = NO_MEMORY, "out of memory"
    except KeyboardInterrupt:
        status, line = STOPPED, "stopped"
    leave(status, line)


def leave(status, line):
    """Ends the process; what standard output still holds is not written once more where it cannot be."""
    try:
        if line:
            print(one_line(line), file=sys.stderr, flush=True)
    except OSError:
        pass
    os._exit(status)
