"""Files that are written whole or not at all, except the page of a job of GitHub's, to which text is added."""

from __future__ import annotations

import os
import re
import stat
import sys
from typing import Callable, Optional, TextIO

from .errors import Broken, reason

STANDARD_OUTPUT = "-"


def encoded(descriptor: int) -> TextIO:
    return open(descriptor, "w", encoding="utf-8", errors="surrogateescape", newline="\n")


def descriptor_of(path: str) -> Optional[int]:
    """Returns the descriptor for which a name stands, as `/dev/stdout` and `/dev/fd/5` do."""
    standard = {"/dev/stdin": 0, "/dev/stdout": 1, "/dev/stderr": 2}
    found = re.fullmatch(r"(?:/dev|/proc/self)/fd/([0-9]{1,7})", path)
    return int(found[1]) if found else standard.get(path)


def open_as_it_is(path: str) -> int:
    """Opens an output that is not a file to be replaced. Of a descriptor a copy is taken: what somebody has written
    there stays."""
    descriptor = descriptor_of(path)
    return os.open(path, os.O_WRONLY | os.O_CLOEXEC) if descriptor is None else os.dup(descriptor)


def is_replaceable(path: str) -> bool:
    """Whether a name is free, or that of a regular file: a device, a pipe or a descriptor is written to as it is."""
    try:
        return descriptor_of(path) is None and stat.S_ISREG(os.stat(path).st_mode) and not path.startswith(("/dev/",
                                                                                                            "/proc/"))
    except FileNotFoundError:
        return True


def write_beside(path: str, fill: Callable[[TextIO], None]) -> None:
    """Writes a file under another name, and gives it its own once it is whole. Missing folders are created."""
    target = os.path.realpath(path)
    folder, name = os.path.split(target)
    os.makedirs(folder, exist_ok=True)
    beside = os.path.join(folder, f".{name[:200]}.{os.getpid()}")
    descriptor = os.open(beside, os.O_WRONLY | os.O_CREAT | os.O_EXCL | os.O_CLOEXEC, 0o666)
    try:
        with encoded(descriptor) as out:
            fill(out)
        os.replace(beside, target)
    except BaseException:
        os.unlink(beside)
        raise


def write_file(path: str, fill: Callable[[TextIO], None]) -> None:
    """Writes an output to a file, or to standard output for `-`. Broken, if that fails."""
    try:
        if path == STANDARD_OUTPUT:
            fill(sys.stdout)
            sys.stdout.flush()
        elif path == os.environ.get("GITHUB_STEP_SUMMARY"):  # others write there, too
            with encoded(os.open(path, os.O_WRONLY | os.O_CREAT | os.O_APPEND | os.O_CLOEXEC, 0o666)) as out:
                fill(out)
        elif is_replaceable(path):
            write_beside(path, fill)
        else:
            with encoded(open_as_it_is(path)) as out:
                fill(out)
    except OSError as error:
        raise Broken(f"{path}: {reason(error)}") from None
