"""Files that the tools read and make."""
import os
import shutil
import signal
import stat
import sys
from contextlib import contextmanager
from pathlib import Path

import endings


def as_file(path, folder):
    """The name of a file that can be read again and again, with the content of `path`: of a pipe a copy is made in `folder`."""
    with endings.reading():
        if not stat.S_ISFIFO(os.stat(path).st_mode):
            with open(path, "rb"):
                return path
        copy = Path(folder) / "copy"
        with open(path, "rb") as source, open(copy, "wb") as file:
            shutil.copyfileobj(source, file)
        return str(copy)


@contextmanager
def made(path, encoding="utf-8"):
    """A text file that is written, or standard output where `path` is None. The file comes to its place only once all is written, so that
    what fails leaves the file as it was; ends of lines are written as they are given."""
    signal.signal(signal.SIGTERM, stop)
    how = {"encoding": encoding, "errors": "surrogateescape", "newline": ""}
    if path is None or not is_replaceable(path):
        with endings.writing():
            file = open(1 if path is None else path, "w", closefd=path is not None, **how)
        yield file
        with endings.writing():
            file.close()
        return
    target = os.path.realpath(path)
    part = f"{target}.{os.getpid()}.part"
    try:
        with endings.writing():
            file = open(part, "x", **how)
        yield file
        with endings.writing():
            file.close()
            keep_leave(target, part)
            os.replace(part, target)
    except BaseException:
        remove(part)
        raise


def is_replaceable(path):
    """Whether a file can be put in the place of this one: it is a regular file, or nothing."""
    return os.path.isfile(path) or not os.path.lexists(path)


def keep_leave(target, part):
    """The new file has the permissions of the one that it replaces."""
    if os.path.exists(target):
        shutil.copymode(target, part)


def remove(path):
    try:
        os.unlink(path)
    except OSError:
        pass


def stop(*_):
    sys.exit(128 + signal.SIGTERM)
