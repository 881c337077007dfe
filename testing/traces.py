"""Traces, for the tests: their records as docs/FORMAT.md lays them out, built and read, in each version; and events
in the letters of docs/inside/MODEL.md, as they stand in the rows of examples/golden.

It knows where a number lies in a record, and no more: any number that has room can be built and is read, whether a
checker takes it or not. What a checker makes of it is in oracle.py, which shares nothing with this.
"""

import re
import struct
from typing import List, NamedTuple, Optional

LOAD, STORE, MALLOC, FREE, POISON, UNPOISON = range(1, 7)
ANEW = 8
CLOSE = b"\x07"

HEADER, HEADER_2, HEADER_3 = (struct.pack("<4sI", b"ASTR", version) for version in (1, 2, 3))
HEADERS = {1: HEADER, 2: HEADER_2, 3: HEADER_3}

# The largest region that is no flaw in version 1.
MAX_OF_VERSION_1 = 1 << 28

# A record: its code, and its numbers.
ACCESS, REGION, PLACE, SHADE, BARE = (struct.Struct(f"<B{numbers}") for numbers in ("BQ", "QQ", "Q", "BQQ", ""))
OF_VERSION_1 = {LOAD: ACCESS, STORE: ACCESS, MALLOC: REGION, FREE: PLACE, POISON: REGION, UNPOISON: REGION}
OF_VERSION_2 = {**OF_VERSION_1, POISON: SHADE}
LAYOUTS = {1: OF_VERSION_1, 2: OF_VERSION_2, 3: {**OF_VERSION_2, ANEW: BARE}}


# ---- records and traces that are built


def load(width: int, at: int) -> bytes:
    return ACCESS.pack(LOAD, width, at)


def store(width: int, at: int) -> bytes:
    return ACCESS.pack(STORE, width, at)


def malloc(at: int, size: int) -> bytes:
    return REGION.pack(MALLOC, at, size)


def free(at: int) -> bytes:
    return PLACE.pack(FREE, at)


def poison(at: int, size: int, kind: Optional[int] = None) -> bytes:
    """A poison of version 1, or one of a later version, which has a kind."""
    return REGION.pack(POISON, at, size) if kind is None else SHADE.pack(POISON, kind, at, size)


def unpoison(at: int, size: int) -> bytes:
    return REGION.pack(UNPOISON, at, size)


def anew() -> bytes:
    return BARE.pack(ANEW)


def closed(*records: bytes, header: bytes = HEADER) -> bytes:
    return header + b"".join(records) + CLOSE


class Event(NamedTuple):
    """A record. `size` is the width of a load or a store, and 0 of a free. `kind` is of a poison."""

    code: int
    at: int = 0
    size: int = 0
    kind: int = 0

    def record(self, version: int) -> bytes:
        """Returns its record in a version, in which a poison of another kind than 0 has none."""
        if self.code in (LOAD, STORE):
            return ACCESS.pack(self.code, self.size, self.at)
        if self.code == FREE:
            return free(self.at)
        if self.code == POISON:
            assert version > 1 or self.kind == 0, "version 1 has no kinds"
            return poison(self.at, self.size, self.kind if version > 1 else None)
        if self.code == ANEW:
            return anew()
        return REGION.pack(self.code, self.at, self.size)

    def is_of(self, version: int) -> bool:
        """Returns whether a version can spell it: version 1 has no kinds and no larger regions, only version 3 anew."""
        is_region = self.code in (MALLOC, POISON, UNPOISON)
        if self.code == ANEW:
            return version == 3
        return version > 1 or (self.kind == 0 and not (is_region and self.size > MAX_OF_VERSION_1))


def trace_of(events: List[Event], version: int) -> bytes:
    """Returns the trace of these events, with the close."""
    return closed(*(event.record(version) for event in events), header=HEADERS[version])


# ---- traces that are read


class Reading(NamedTuple):
    """The whole records that a trace begins with. `version` is 0 if the header is that of none, and `offset` counts
    the bytes of the header and of these records. A trace is closed if the close comes next, and is its last byte."""

    version: int
    events: List[Event]
    offset: int
    is_closed: bool


def version_of(trace: bytes) -> int:
    return next((version for version, header in HEADERS.items() if trace[:8] == header), 0)


def layout_at(trace: bytes, at: int, version: int) -> Optional[struct.Struct]:
    """Returns the layout of the record that begins at this byte, or None if none does."""
    return LAYOUTS[version].get(trace[at])


def event_at(trace: bytes, at: int, layout: struct.Struct) -> Event:
    numbers = layout.unpack_from(trace, at)
    if layout is ACCESS:
        return Event(numbers[0], numbers[2], numbers[1])
    if layout is SHADE:
        return Event(numbers[0], numbers[2], numbers[3], numbers[1])
    return Event(*numbers)


def read(trace: bytes) -> Reading:
    version = version_of(trace)
    events: List[Event] = []
    if not version:
        return Reading(0, events, 0, False)
    at = 8
    while at < len(trace):
        layout = layout_at(trace, at, version)
        if layout is None or at + layout.size > len(trace):
            break
        events.append(event_at(trace, at, layout))
        at += layout.size
    return Reading(version, events, at, trace[at:] == CLOSE)


# ---- events in letters


WORD = re.compile(r"([ls])(\d+) ([0-9a-f]+)|(m|P\d*|U) ([0-9a-f]+) (\d+)|f ([0-9a-f]+)|A")
LETTERS = {"l": LOAD, "s": STORE, "m": MALLOC, "P": POISON, "U": UNPOISON}


def event_of(word: str) -> Event:
    """Returns the event that these letters say, as `s4 1004`."""
    found = WORD.fullmatch(word)
    if not found:
        raise ValueError(f"no event is written so: {word!r}")
    access, width, place, region, at, size, freed = found.groups()
    if access:
        return Event(LETTERS[access], int(place, 16), int(width))
    if region:
        return Event(LETTERS[region[0]], int(at, 16), int(size), int(region[1:] or 0))
    return Event(FREE, int(freed, 16)) if freed else Event(ANEW)


def events_of(text: str) -> List[Event]:
    """Returns the events of a text such as `m 1000 5, s4 1004`."""
    return [event_of(word) for word in text.split(", ")]


def is_row(text: str) -> bool:
    """Returns whether a text is one or more events in letters."""
    return all(WORD.fullmatch(word) for word in text.split(", "))
