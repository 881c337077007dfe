#!/usr/bin/env python3
"""Reads traces a second time: works out, slowly, what asancol has to print of them.

usage: tests/oracle.py [--limit L] [--quarantine B] [--failed-read] TRACE..

It was written from docs/FORMAT.md (a stream, ranges, flaws, fates, lines) and docs/inside/MODEL.md (the
events, rule by rule) alone, and shares nothing with the code. It keeps all that was marked,
oldest first, and works out the 8 states of a granule anew for each question. `fuzz.py` holds the
program to it.

With `--failed-read` the read after the last byte fails, in place of the end of the input. It prints
the text of all traces, and ends with the status that asancol has to end with.
"""

import sys
from typing import Dict, List, NamedTuple, Optional, Tuple

HEADERS = {b"ASTR\x01\0\0\0": 1, b"ASTR\x02\0\0\0": 2, b"ASTR\x03\0\0\0": 3}
LOAD, STORE, MALLOC, FREE, POISON, UNPOISON, CLOSE, ANEW = 1, 2, 3, 4, 5, 6, 7, 8

ADDRESSES_END = 1 << 47
MAX_REGION = {1: 1 << 28, 2: 1 << 32, 3: 1 << 32}
MAX_LIMIT = 1 << 24
DEFAULT_QUARANTINE = 1 << 28
REDZONE = 32

# The state of a byte: addressable, or the code that says why it is not.
ADDRESSABLE = 0
HEAP_REDZONE, FREED = 0xFA, 0xFD
CODE_OF_KIND = {0: 0xF7, 1: 0xF2, 2: 0xF9}

CLASSES = {
    ADDRESSABLE: "unknown-crash",
    HEAP_REDZONE: "heap-buffer-overflow",
    FREED: "heap-use-after-free",
    0xF7: "use-after-poison",
    0xF2: "stack-buffer-overflow",
    0xF9: "global-buffer-overflow",
}


class Event(NamedTuple):
    """A record. `size` is the width of a load or a store, and 0 of a free. `kind` is of a poison.
    All three are 0 of an anew."""

    code: int
    at: int
    size: int
    kind: int


class Reading(NamedTuple):
    """What a stream spells: its good records, and how it ends."""

    events: List[Event]
    fate: str
    offset: int


class Verdict(NamedTuple):
    """A line without the process: of which event, and what comes after its number."""

    number: int
    text: str


def length_of(code: int, version: int) -> int:
    """How many bytes the record of a code has, with the code; 0: no record begins so."""
    if code in (LOAD, STORE):
        return 10
    if code == FREE:
        return 9
    if code == POISON and version >= 2:
        return 18
    if code == ANEW and version == 3:
        return 1
    return 17 if code in (MALLOC, POISON, UNPOISON) else 0


def number_in(record: bytes, at: int) -> int:
    return int.from_bytes(record[at : at + 8], "little")


def event_of(record: bytes, version: int) -> Event:
    """The event of a whole record, whatever its numbers are."""
    code = record[0]
    if code in (LOAD, STORE):
        return Event(code, number_in(record, 2), record[1], 0)
    if code == FREE:
        return Event(code, number_in(record, 1), 0, 0)
    if code == ANEW:
        return Event(code, 0, 0, 0)
    if code == POISON and version >= 2:
        return Event(code, number_in(record, 2), number_in(record, 10), record[1])
    return Event(code, number_in(record, 1), number_in(record, 9), 0)


def flaw_of(event: Event, version: int) -> Optional[str]:
    """The first flaw of an event's numbers, in the order of FORMAT.md's table."""
    if event.code == FREE:
        return "range" if event.at >= ADDRESSES_END else None
    if event.code == ANEW:
        return None
    if event.code in (LOAD, STORE):
        if event.size not in (1, 2, 4, 8):
            return "width"
    else:
        if event.kind > 2:
            return "kind"
        if event.size > MAX_REGION[version]:
            return "size"
    return "range" if event.at + event.size > ADDRESSES_END else None


def read(text: bytes, limit: int = MAX_LIMIT, failed_read: bool = False) -> Reading:
    """What the text spells under a limit of events. With `failed_read` a read fails after it."""
    events: List[Event] = []
    if len(text) < 8:
        return Reading(events, "read-failed" if failed_read else "truncated", 0)
    version = HEADERS.get(text[:8])
    if version is None:
        return Reading(events, "malformed header", 0)
    at = 8
    while at < len(text):
        code = text[at]
        if code == CLOSE:
            return Reading(events, "closed", at + 1)
        if len(events) == limit:
            return Reading(events, "too-many", at)
        length = length_of(code, version)
        if length == 0:
            return Reading(events, "malformed code", at)
        if at + length > len(text):
            return Reading(events, "read-failed" if failed_read else "truncated", at)
        event = event_of(text[at : at + length], version)
        flaw = flaw_of(event, version)
        if flaw is not None:
            return Reading(events, f"malformed {flaw}", at)
        events.append(event)
        at += length
    return Reading(events, "read-failed" if failed_read else "no-close", at)


def round_up(size: int) -> int:
    return (size + 7) // 8 * 8


def span(at: int, size: int) -> Tuple[int, int]:
    """From where up to where the span of a block goes."""
    return at - REDZONE, at + round_up(size) + REDZONE


class Mark(NamedTuple):
    """What an event said of the bytes from `start` up to `end`: 'fill' with a code, 'poison' with a
    code, or 'unpoison'."""

    what: str
    start: int
    end: int
    code: int


def put_mark(states: List[int], first: int, mark: Mark) -> None:
    """Changes the states of the granule that begins at `first`, some of which the mark covers."""
    start, end = max(mark.start - first, 0), min(mark.end - first, 8)
    if mark.what == "fill" or (mark.what == "poison" and start == 0 and end == 8):
        states[start:end] = [mark.code] * (end - start)
    elif mark.what == "unpoison":
        states[:end] = [ADDRESSABLE] * end
    elif all(state != ADDRESSABLE for state in states[end:]):
        for i in range(start, end):
            if states[i] == ADDRESSABLE:
                states[i] = mark.code


class SlowChecker:
    """Answers events one after another."""

    def __init__(self, quarantine: int = DEFAULT_QUARANTINE) -> None:
        self.quarantine = quarantine
        self.live: Dict[int, int] = {}  # the size of the block at each address
        self.held: List[Tuple[int, int]] = []  # address and size, the oldest free first
        self.marks: List[Mark] = []  # the oldest first

    def mark(self, what: str, start: int, end: int, code: int) -> None:
        if start < end:
            self.marks.append(Mark(what, start, end, code))

    def states(self, first: int) -> List[int]:
        """The states of the 8 bytes of the granule that begins at `first`."""
        states = [ADDRESSABLE] * 8
        for mark in self.marks:
            if mark.start < first + 8 and first < mark.end:
                put_mark(states, first, mark)
        return states

    def fault(self, event: Event) -> Optional[str]:
        """Carries an event out, or returns its mistake."""
        if event.code == MALLOC:
            return self.malloc(event)
        if event.code == FREE:
            return self.free(event.at)
        if event.code == POISON:
            self.mark("poison", event.at, event.at + event.size, CODE_OF_KIND[event.kind])
            return None
        if event.code == UNPOISON:
            self.mark("unpoison", event.at, event.at + event.size, ADDRESSABLE)
            return None
        if event.code == ANEW:
            self.live, self.held, self.marks = {}, [], []
            return None
        return self.access(event)

    def meets(self, start: int, end: int) -> bool:
        for at, size in [*self.live.items(), *self.held]:
            other_start, other_end = span(at, size)
            if start < other_end and other_start < end:
                return True
        return False

    def malloc(self, event: Event) -> Optional[str]:
        at, size = event.at, event.size
        if at == 0:
            return None
        start, end = span(at, size)
        if at % 8 != 0 or at < REDZONE or end > ADDRESSES_END or self.meets(start, end):
            return f"malloc {size} at {at:012x} bad-malloc"
        self.live[at] = size
        self.mark("fill", start, at, HEAP_REDZONE)
        self.mark("fill", at, at + size, ADDRESSABLE)
        self.mark("fill", at + size, end, HEAP_REDZONE)
        return None

    def free(self, at: int) -> Optional[str]:
        if at == 0:
            return None
        if at not in self.live:
            is_held = any(at == start for start, _ in self.held)
            return f"free at {at:012x} {'double-free' if is_held else 'bad-free'}"
        size = self.live.pop(at)
        self.mark("fill", at, at + round_up(size), FREED)
        self.held.append((at, size))
        while sum(round_up(size) + 2 * REDZONE for _, size in self.held) > self.quarantine:
            start, end = span(*self.held.pop(0))
            self.mark("fill", start, end, HEAP_REDZONE)
        return None

    def access(self, event: Event) -> Optional[str]:
        first = event.at - event.at % 8
        states = self.states(first)
        inside = range(event.at, min(event.at + event.size, first + 8))
        bad = [byte for byte in inside if states[byte - first] != ADDRESSABLE]
        if not bad:
            return None
        addressable = states.count(ADDRESSABLE)
        deciding = self.states(first + 8)[0] if addressable else states[0]
        shadow = addressable if addressable else states[0]
        what = "load" if event.code == LOAD else "store"
        return (
            f"{what} {event.size} at {event.at:012x} bad {bad[0]:012x}"
            f" {CLASSES[deciding]} shadow {shadow:02x}"
        )


def verdicts(events: List[Event], quarantine: int = DEFAULT_QUARANTINE) -> List[Verdict]:
    """The mistake of each bad event, by its number from 1."""
    checker = SlowChecker(quarantine)
    faults = [checker.fault(event) for event in events]
    return [Verdict(number, text) for number, text in enumerate(faults, 1) if text is not None]


def lines_of(process: int, reading: Reading, found: List[Verdict]) -> List[str]:
    """The lines of a process: those of its verdicts, and that of its end."""
    lines = [f"p{process} #{verdict.number} {verdict.text}" for verdict in found]
    end = f"{reading.fate} events {len(reading.events)} offset {reading.offset}"
    return [*lines, f"p{process} end {end} reports {len(found)}"]


def status_of(ends: List[Tuple[str, int]]) -> int:
    """The status, by the fate of each process and the number of its reports."""
    if any(fate != "closed" for fate, _ in ends):
        return 3
    return 1 if any(reports for _, reports in ends) else 0


def main(argv: List[str]) -> int:
    limit, quarantine, failed_read = MAX_LIMIT, DEFAULT_QUARANTINE, False
    while argv and argv[0].startswith("--"):
        option = argv.pop(0)
        if option == "--limit":
            limit = int(argv.pop(0))
        elif option == "--quarantine":
            quarantine = int(argv.pop(0))
        elif option == "--failed-read":
            failed_read = True
        else:
            sys.exit(__doc__)
    ends = []
    for process, path in enumerate(argv):
        with open(path, "rb") as file:
            reading = read(file.read(), limit, failed_read)
        found = verdicts(reading.events, quarantine)
        print("\n".join(lines_of(process, reading, found)))
        ends.append((reading.fate, len(found)))
    return status_of(ends)


if __name__ == "__main__":
    sys.exit(main(sys.argv[1:]))
