"""What ends this program, and with which status."""

from __future__ import annotations

CLEAN, COUNTS, REFUSED, INCOMPLETE, FAILED = range(5)


class Refused(Exception):
    """The request makes no sense: the command line, or a file that goes with it."""


class Broken(Exception):
    """A file can't be read or written, or is not what it has to be."""


def reason(error: OSError) -> str:
    """Returns what went wrong, without the file's name."""
    return error.strerror or str(error)
