"""Starts other programs and waits for them. The module `subprocess` would double the time in which this one starts."""

from __future__ import annotations

import os
import select
from typing import BinaryIO, Sequence

INPUT, OUTPUT, ERRORS = range(3)
# Where a started program finds the file that it was given.
GIVEN = 3


def in_memory(text: bytes = b"") -> BinaryIO:
    """Returns a file that is nowhere on a disk, to be read from its front."""
    file = os.fdopen(os.memfd_create("asancol-report"), "w+b")
    file.write(text)
    file.flush()
    file.seek(0)
    return file


def start(argv: Sequence[str], stdin: int, stdout: int, given: int = -1, is_silent: bool = False) -> int:
    """Starts a program and returns its number. OSError, if it can't be run."""
    actions = [(os.POSIX_SPAWN_DUP2, stdin, INPUT), (os.POSIX_SPAWN_DUP2, stdout, OUTPUT)]
    if is_silent:
        actions.append((os.POSIX_SPAWN_OPEN, ERRORS, os.devnull, os.O_WRONLY, 0))  # type: ignore[arg-type]
    if given >= 0:
        actions.append((os.POSIX_SPAWN_DUP2, given, GIVEN))
    return os.posix_spawn(argv[0], list(argv), os.environ, file_actions=actions)


def wait(child: int, patience: float = 0) -> int:
    """Waits for a program and returns its status; minus a signal that has ended it. One that takes longer than this
    number of seconds is ended; 0 means no limit."""
    if patience:
        end_late(child, patience)
    return os.waitstatus_to_exitcode(os.waitpid(child, 0)[1])


def end_late(child: int, patience: float) -> None:
    try:
        descriptor = os.pidfd_open(child)
    except OSError:
        return  # an old kernel: there is no limit
    try:
        poll = select.poll()
        poll.register(descriptor, select.POLLIN)
        if not poll.poll(patience * 1000):
            os.kill(child, 9)
    finally:
        os.close(descriptor)
