"""The lines that asancol prints of one process, grouped: a loop over bad bytes is one group with a count."""

from __future__ import annotations

import os
import re
from typing import Callable, Dict, Iterator, List, NamedTuple, Optional, Tuple

from .class_names import OF_ASANCOL

REPORT = re.compile(
    rb"p\d{1,9} #(\d{1,9}) (load|store|free|malloc)(?: (\d{1,20}))? at ([0-9a-f]{1,16})"
    rb"(?: bad ([0-9a-f]{1,16}))? (" + b"|".join(word.encode() for word in OF_ASANCOL) + rb")(?: shadow ([0-9a-f]{2}))?"
)
END = re.compile(
    rb"p\d{1,9} end [a-z -]+?(?: (?:events|checked) \d{1,20})?(?: offset \d{1,20})?(?: reports \d{1,20})?"
)

# Lines are read in pieces of this many bytes, and no line is longer.
PIECE = 1 << 20
MAX_LINE_LENGTH = 1 << 12


class Line(NamedTuple):
    """What a line says of a bad event."""

    event: int
    access: str
    size: Optional[int]
    address: int
    bad: Optional[int]
    class_name: str
    shadow: str


# A fault, and the kind and class of a line; without a fault, its width too.
Key = Tuple[int, bytes, bytes, bytes]
# The number of an event's fault, and whether it is a further piece of an access.
LookUp = Callable[[int], Tuple[int, bool]]


class Group:
    """Lines of one process that are the same except their events and addresses."""

    __slots__ = ("fault", "count", "first")

    def __init__(self, fault: int, first: Line) -> None:
        self.fault = fault
        self.count = 0  # without further pieces
        self.first = first


def lines_of(descriptor: int) -> Iterator[List[bytes]]:
    """Goes over the lines behind a descriptor, some at a time. The rest of a line that is too long is no line."""
    offset, rest = 0, b""
    while True:
        try:
            piece = os.pread(descriptor, PIECE, offset)
        except OSError:
            piece = b""
        offset += len(piece)
        lines = (rest + piece).split(b"\n")
        rest = lines.pop()[:MAX_LINE_LENGTH]
        if not piece:
            yield [*lines, rest] if rest else lines
            return
        yield lines


def line_of(found: re.Match[bytes]) -> Line:
    event, access, size, address, bad, class_name, shadow = found.groups()
    return Line(
        int(event),
        access.decode(),
        int(size) if size else None,
        int(address, 16),
        int(bad, 16) if bad else None,
        class_name.decode(),
        shadow.decode() if shadow else "",
    )


class Verdicts:
    """All lines of one process. Those of further pieces count only if no other line has their fault, and then as none:
    what they are pieces of stands in another segment."""

    def __init__(self, descriptor: int, look_up: LookUp) -> None:
        self.groups: Dict[Key, Group] = {}
        self.strange = 0  # lines that are no lines
        self.pieces: Dict[int, re.Match[bytes]] = {}  # the first of each fault
        for lines in lines_of(descriptor):
            self.take(lines, look_up)
        for group in self.groups.values():
            self.pieces.pop(group.fault, None)
        for fault, found in self.pieces.items():
            self.group_of(fault, found)

    def take(self, lines: List[bytes], look_up: LookUp) -> None:
        match = REPORT.fullmatch
        for line in lines:
            found = match(line)
            if found is None:
                self.take_other(line)
                continue
            fault, is_piece = look_up(int(found.group(1)))
            if is_piece:
                self.pieces.setdefault(fault, found)
            else:
                self.group_of(fault, found).count += 1

    def group_of(self, fault: int, found: re.Match[bytes]) -> Group:
        _, access, size, _, _, class_name, _ = found.groups()
        key = (fault, access, b"" if fault or access == b"malloc" else size or b"", class_name)
        group = self.groups.get(key)
        if group is None:
            group = self.groups[key] = Group(fault, line_of(found))
        return group

    def take_other(self, line: bytes) -> None:
        if END.fullmatch(line) is None:
            self.strange += 1
