"""The golden rows: those of examples/golden, and what asancol prints of each in a version, whole and cut."""

import glob
import os
import re
from typing import Dict, Iterator, List, NamedTuple, Tuple

from .programs import TOP
from .traces import HEADER, HEADERS, Event, events_of, is_row, trace_of

FOLDER = "examples/golden"

Finding = Tuple[str, int, str]

NAME = re.compile(r"[a-z][a-z0-9_]+")
OPTION = re.compile(r"(Q|limit|version) = (\d+)")
END = re.compile(r"p0 end (malformed (?P<flaw>[a-z]+)|too-many) events (?P<events>\d+) offset \d+ reports \d+")
REPORT = re.compile(r"p0 #(\d+) .+")


class Row(NamedTuple):
    """A row: its name, where it stands, its events as they are written, the numbers before them by their names, and the
    lines: those of its reports, and that of an end that is not closed."""

    name: str
    path: str
    line: int
    text: str
    numbers: Dict[str, int]
    lines: List[str]

    @property
    def events(self) -> List[Event]:
        return events_of(self.text)

    def options(self) -> List[str]:
        """Returns the options of `asancol check` that the numbers ask for."""
        argv: List[str] = []
        for name, option in (("Q", "--quarantine"), ("limit", "--limit")):
            if name in self.numbers:
                argv += [option, str(self.numbers[name])]
        return argv

    def versions(self) -> List[int]:
        """Returns the versions that can spell it, or the only one that it is for."""
        if "version" in self.numbers:
            return [self.numbers["version"]]
        return [version for version in HEADERS if all(event.is_of(version) for event in self.events)]

    def trace(self, version: int) -> bytes:
        return trace_of(self.events, version)


class Printed(NamedTuple):
    """The output for a trace without the number of its process, and the status."""

    lines: List[str]
    status: int

    def text(self, process: int) -> str:
        return "".join(f"p{process} {line}\n" for line in self.lines)


def printed(row: Row, version: int, length: int) -> Printed:
    """Returns the output for the first `length` bytes of a row's trace, by the fates of docs/FORMAT.md.
    Where the row says how its end is decided, it is that from the byte on that decides it."""
    ends = [len(HEADER)]  # of the header, and of each record
    for event in row.events:
        ends.append(ends[-1] + len(event.record(version)))
    said = END.fullmatch(row.lines[-1]) if row.lines else None
    decided = ends[-1] + 1
    if said:
        good = int(said["events"])
        decided = ends[good + 1] if said["flaw"] else ends[good] + 1
    lines = [it[len("p0 ") :] for it in row.lines]
    if said and length >= decided:
        return Printed(lines, 3)
    events = max(sum(end <= length for end in ends) - 1, 0)
    found = [it for it in lines if it[0] == "#" and int(it[1:].split()[0]) <= events]
    offset = ends[events] if length >= ends[0] else 0
    fate = "no-close" if length == offset and offset else "truncated"
    if length >= decided:
        fate, offset = "closed", decided
    status = 3 if fate != "closed" else 1 if found else 0
    return Printed([*found, f"end {fate} events {events} offset {offset} reports {len(found)}"], status)


def row_of(path: str, line: int, block: List[str]) -> Row:
    """Returns the row of a block of lines: its name, its events, and the output."""
    lines = [it for it in block if it.startswith("p0 ")]
    front, _, text = " ".join(block[1 : len(block) - len(lines)]).rpartition(": ")
    options = [OPTION.fullmatch(it) for it in front.split(", ")] if front else []
    numbers = {it[1]: int(it[2]) for it in options if it}
    is_end = bool(lines and END.fullmatch(lines[-1]))
    reports = lines[:-1] if is_end else lines
    if not (
        NAME.fullmatch(block[0])
        and len(numbers) == len(options)
        and is_row(text)
        and all(REPORT.fullmatch(it) for it in reports)
    ):
        raise ValueError(f"{path}:{line}: this is no row: {block}")
    return Row(block[0], path, line, text, numbers, lines)


def blocks_of(text: str) -> Iterator[List[str]]:
    """Goes over the blocks of lines between empty ones, each with the number of its first line before it."""
    for found in re.finditer(r"(?:^(?!#).+\n)+", text, re.M):
        yield [str(text.count("\n", 0, found.start()) + 1), *found[0].splitlines()]


def rows(top: str = TOP) -> List[Row]:
    """Returns all rows, in the order of the files and of their lines."""
    found = []
    for path in sorted(glob.glob(f"{top}/{FOLDER}/*.rows")):
        with open(path, encoding="ascii") as file:
            for number, *block in blocks_of(file.read()):
                found.append(row_of(os.path.relpath(path, top), int(number), block))
    return found


# ---- the same examples elsewhere

LEMMAS = "crates/asan_check/proofs/Examples.antt"
LEMMA = re.compile(r"^(\w+) :\s+verdicts (\w+) (.*?)\s+≡ (.*?)\n\1 = refl$", re.M | re.S)
EVENTS = re.compile(r"^abbrev (\w+) : List Event\n\1 =\s(.*?)\n\n", re.M | re.S)
EVENT = re.compile(r"\((\w+)(?: kind\.(\w+))? 0x(\w+)(?: (\d+))? refl\)|\b(?:event\.A|a)new\b")
REPORTED = re.compile(r"\(report (\d+) \(fault\.(\w+) ([^()]*)\)\)")
BOUNDS = {"usual": None, "largest_quarantine": 1 << 40}
LETTERS = {"malloc": "m", "free": "f", "poison": "P", "poison_of": "P", "unpoison": "U", "load": "l", "store": "s"}
KINDS = {"": "", "User": "", "Stack": "1", "Global": "2"}


def word_of(name: str, kind: str, at: str, size: str) -> str:
    """Returns an event of a lemma in letters. Without a name it is anew."""
    if not name:
        return "A"
    if name in ("load", "store"):
        return f"{LETTERS[name]}{size} {at}"
    return f"{LETTERS[name]}{KINDS[kind]} {at} {size}".rstrip()


def words_of(name: str) -> str:
    """Returns what a fault or a class is called in a line, such as `bad-free` for BadFree."""
    return re.sub(r"\B(?=[A-Z])", "-", name).lower()


def line_of(number: str, fault: str, values: str) -> str:
    """Returns the line of a report of a lemma."""
    numbers = values.split()
    if fault != "Access":
        size = f"malloc {numbers[1]}" if fault == "BadMalloc" else "free"
        return f"p0 #{number} {size} at {int(numbers[0], 16):012x} {words_of(fault)}"
    is_store, width, at, bad, said, shadow = numbers
    access = f"{'store' if is_store == 'true' else 'load'} {width} at {int(at, 16):012x} bad {int(bad, 16):012x}"
    return f"p0 #{number} {access} {words_of(said.rpartition('.')[2])} shadow {int(shadow, 0):02x}"


def other_lemmas(known: Dict[str, Row], top: str = TOP) -> Iterator[Finding]:
    """Goes over the lemmas that have no row of their name, or are not what it says."""
    with open(f"{top}/{LEMMAS}", encoding="utf-8") as file:
        text = file.read()
    lists = dict(EVENTS.findall(text))
    for found in LEMMA.finditer(text):
        name, bound, events, reports = found.groups()
        for abbreviation, meant in lists.items():
            events = re.sub(rf"\b{abbreviation}\b", lambda _, meant=meant: meant, events)
        said = ", ".join(word_of(*it) for it in EVENT.findall(events))
        lines = [line_of(*it) for it in REPORTED.findall(reports)]
        quarantine = BOUNDS[bound] if bound in BOUNDS else int(bound)
        row = known.get(name)
        if row is None or (row.text, row.lines, row.numbers.get("Q")) != (said, lines, quarantine):
            line = text.count("\n", 0, found.start()) + 1
            yield LEMMAS, line, f"no row of {FOLDER} says the same: {name}"


def other_traces(known: Dict[str, Row], top: str = TOP) -> Iterator[Finding]:
    """Goes over the stored traces that are not those of the rows of their names."""
    for path in sorted(glob.glob(f"{top}/examples/*.trace")):
        row = known.get(os.path.basename(path)[: -len(".trace")])
        with open(path, "rb") as file:
            trace = file.read()
        if row is None or trace not in [row.trace(version) for version in row.versions()]:
            yield os.path.relpath(path, top), 1, f"no row of {FOLDER} has this trace"


def by_name(all_rows: List[Row]) -> Dict[str, Row]:
    return {row.name: row for row in all_rows}
