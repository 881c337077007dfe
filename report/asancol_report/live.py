"""The reports that processes print themselves where they come up: each place once in a file."""

from __future__ import annotations

import os
import select
import socket
from contextlib import suppress
from typing import Callable, Dict, List, NamedTuple, Set, Tuple

from .consequences import Earlier
from .findings import Finding, Place

# What a process sends once it has printed its report.
PRINTED = b"+"
# How long one may take for that, in milliseconds.
PATIENCE = 300

# A file, by its device and its number there; and a place.
Key = Tuple[str, Place]


class Given(NamedTuple):
    """A report that was given to a process, which has not said yet that it is printed."""

    key: Key
    waiting: socket.socket


class Live:
    """Which places were printed to which files. `text_of` makes the text of a finding for a file."""

    def __init__(self, text_of: Callable[[Finding, str], str]) -> None:
        self.text_of = text_of
        self.printed: Set[Key] = set()
        self.counts: Dict[str, int] = {}  # of each file, how many were printed
        self.earlier: Dict[Tuple[int, int], Earlier] = {}  # of each process, what later reports may follow from
        self.given: List[Given] = []

    def show(self, finding: Finding, file: str, connection: int, most: int) -> None:
        """Gives a process that waits its report, unless it has been printed to that file."""
        self.settle(0)
        key = (file, finding.place)
        finding.forget_consequences()
        if not finding.by_recorder:
            self.earlier.setdefault(finding.first_process, Earlier()).take(finding, key not in self.printed)
        if key in self.printed or self.counts.get(file, 0) >= most:
            return
        waiting = socket.socket(fileno=os.dup(connection))
        self.printed.add(key)
        self.counts[file] = self.counts.get(file, 0) + 1
        self.given.append(Given(key, waiting))
        with suppress(OSError):
            text = self.text_of(finding, file).encode(errors="surrogateescape")
            waiting.send(text, socket.MSG_DONTWAIT | socket.MSG_NOSIGNAL)
            waiting.shutdown(socket.SHUT_WR)

    def settle(self, patience: int) -> None:
        """Forgets the given reports that were not printed, as far as that is known, or is known soon."""
        given, self.given = self.given, []
        for it in given:
            poll = select.poll()
            poll.register(it.waiting, select.POLLIN)
            if not poll.poll(patience) and not patience:
                self.given.append(it)
                continue
            with it.waiting, suppress(OSError):
                if it.waiting.recv(1, socket.MSG_DONTWAIT) == PRINTED:
                    continue
            self.printed.discard(it.key)
            self.counts[it.key[0]] -= 1

    def places(self, file: str) -> List[Place]:
        """Returns the places that were printed to a file."""
        self.settle(PATIENCE)
        return [place for name, place in self.printed if name == file]
