"""Reads of files that may be anything: links to devices, pipes, or cut while they are read.

Files are read and not mapped. A mapped file that somebody cuts would end this program.
"""

from __future__ import annotations

import os
import stat


def open_regular(path: str) -> int:
    """Opens a file to read it, and returns its descriptor. OSError, if it is no regular file or can't be opened. A pipe
    that nobody writes does not hold this up."""
    descriptor = os.open(path, os.O_RDONLY | os.O_NONBLOCK | os.O_CLOEXEC)
    if not is_regular(descriptor):
        os.close(descriptor)
        raise OSError(0, "not a regular file", path)
    return descriptor


def is_regular(descriptor: int) -> bool:
    return stat.S_ISREG(os.fstat(descriptor).st_mode)


def read_at(descriptor: int, offset: int, length: int) -> bytes:
    """Returns the bytes from an offset on: `length` of them, or up to the end."""
    pieces = []
    while length > 0:
        try:
            piece = os.pread(descriptor, length, offset)
        except (OSError, OverflowError):
            break
        if not piece:
            break
        pieces.append(piece)
        offset += len(piece)
        length -= len(piece)
    return b"".join(pieces)
