"""Side memories. They are read by what asancol-report reads them with, and written by the same layout, which a test
holds against common/format.h."""

import os
import shutil
import struct
import subprocess
import weakref
from typing import Any, Dict, List, NamedTuple, Sequence, Tuple

from . import programs
from asancol_report import side as layout
from asancol_report.side import FAULTS_AT, INDEX_AT, MAPS_AT, STACKS_AT, THREADS_AT, Calls, Fault, Thread  # noqa: F401
from .expectations import Failure

NO_ENDING, EXIT, EXEC, SIGNAL, LOST, SEGMENT = range(6)
NO_VARIABLE, OF_STACK, GLOBAL, DYNAMIC = range(4)


# ---- reading


class Side(layout.Side):
    """A side memory, and what tests of the recorder look at besides. It closes its descriptor."""

    def __init__(self, descriptor: int) -> None:
        super().__init__(descriptor)
        weakref.finalize(self, os.close, descriptor)

    def skipped(self) -> int:
        """The checks that were turned off, as numbers that are added."""
        return int(layout.PROGRESS.unpack(self.bytes_at(layout.PROGRESS_AT, layout.PROGRESS.size))[19])

    def used_again(self) -> int:
        """How many bytes of blocks had been handed out when freed memory came again; 0 if it never has."""
        return int(layout.PROGRESS.unpack(self.bytes_at(layout.PROGRESS_AT, layout.PROGRESS.size))[-1])

    def has_needed(self, events: int) -> bool:
        """Whether all that may be bad is among this many events."""
        return self.needed <= events + 1 and self.noted == 0

    def bytes_at(self, at: int, size: int) -> bytes:
        return os.pread(self.descriptor, size, at)

    def fault_of(self, event: int) -> int:
        return self.look_up(event)[0]

    def is_piece(self, event: int) -> bool:
        return self.look_up(event)[1]

    def fault_at(self, event: int) -> Any:
        """Returns the fault of an event, or None."""
        return self.fault(self.fault_of(event))

    def event_of(self, number: int) -> int:
        """Returns the first event of a fault; 0 if none has it yet."""
        at = FAULTS_AT + (number - 1) * layout.FAULT.size
        return int.from_bytes(self.bytes_at(at, layout.WORD.size), "little")

    def faults(self) -> List[Fault]:
        """Returns those that an event has."""
        numbers = [it for it in range(1, self.fault_count + 1) if self.event_of(it)]
        return [it for it in map(self.fault, numbers) if it]

    def builds(self) -> Dict[str, str]:
        """Returns the build ids, by the file of the module."""
        return {it.path: it.build for it in self.maps}

    def path(self, place: int) -> str:
        """Returns the file that a place is in, or an empty text."""
        mapping = self.mapping(place)
        return mapping.path if mapping else ""

    def module(self, place: int) -> Tuple[str, int]:
        """Returns the file that a place is in, and what to take away for its own address."""
        mapping = self.mapping(place)
        if not mapping:
            raise Failure(f"no module is at {place:x}")
        with open(mapping.path, "rb") as file:
            is_at_fixed_place = file.read(18)[16] == 2
        return mapping.path, 0 if is_at_fixed_place else mapping.base

    def lines(self, places: Sequence[int]) -> List[Tuple[str, str]]:
        """Returns function and FILE:LINE of each place. addr2line does not know all functions that Clang has inlined,
        and llvm-addr2line does."""
        tool = shutil.which("llvm-addr2line") or "addr2line"
        wanted: Dict[Tuple[str, int], List[int]] = {}
        for place in set(places):
            wanted.setdefault(self.module(place), []).append(place)
        found = {}
        for (path, base), of_module in wanted.items():
            addresses = "\n".join(hex(place - 1 - base) for place in of_module)
            said = programs.run([tool, "-f", "-e", path], ".", addresses.encode()).stdout.decode().splitlines()
            for place, function, line in zip(of_module, said[::2], said[1::2]):
                found[place] = (function, os.path.basename(line.split(" (")[0]))
        return [found[place] for place in places]


def side_of(path: str) -> Side:
    """Opens the side file of a trace."""
    return Side(os.open(f"{path}.where", os.O_RDONLY | os.O_CLOEXEC))


# ---- writing


# Parts of a side memory, each with its offset.
Parts = List[Tuple[int, bytes]]


def fault(place: int = 0, block: int = 0, size: int = 0, allocated: int = 0, freed: int = 0, variable: int = 0,
          line: int = 0, name: str = "", stacks: Tuple[int, int, int] = (0, 0, 0),
          threads: Tuple[int, int, int] = (0, 0, 0), access: Tuple[int, int] = (0, 0), shadow: bytes = b"",
          shadow_start: int = 0, frame: Tuple[int, int] = (0, 0), variables: int = 0, call: str = "",
          test: int = 0) -> bytes:
    """Returns a fault. `access` is the start and the size of all of it, `frame` where that of a variable begins, and
    an address in its function, and `test` the number of a text."""
    return layout.FAULT.pack(1, place, block, size, allocated, freed, variable | test << layout.TEST_SHIFT, line,
                             *stacks, *threads, *access, shadow_start, *frame, variables, 0, shadow,
                             call.encode(), name.encode()[:120])


def finding(kind: int, place: int = 0, block: int = 0, size: int = 0, allocated: int = 0, call: str = "",
            name: str = "", given: Tuple[int, int] = (0, 0), count: int = 1, after: int = 0, other: int = 0,
            freed: int = 0, stack: int = 0) -> bytes:
    """Returns a finding of the recorder. `given` is what the call was given: the start of a range, and a size."""
    found = layout.FOUND.pack(count, after, other)
    return layout.FAULT.pack(0, place, block, size, allocated, freed, 0, 0, stack, *[0] * 5, *given, *[0] * 4, kind,
                             found, call.encode(), name.encode())


def thread(number: int, system_number: int, name: str = "", created: int = 0, stack: int = 0,
           creator: int = 0) -> bytes:
    return layout.THREAD.pack(created, stack, creator, number, system_number, name.encode())


def side(maps: str = "", builds: Sequence[Tuple[int, str]] = (), faults: Sequence[bytes] = (),
         index: Sequence[int] = (), process: int = 7, ending: int = EXIT, signal: int = 0, events: int = 0,
         left_out: int = 0, started: int = (1 << 63) - 1, argv: Sequence[str] = ("./program",),
         stacks: Sequence[int] = (), needed: int = 1, segment: int = 1, stated: int = 0, is_at_limit: bool = False,
         quarantine: int = 1 << 28, noted: int = 0, calls: int = 0, starts: int = 0, has_checks: int = 1,
         has_begun: int = 1, threads: Sequence[bytes] = (), last_thread: int = 0, first_name: str = "",
         last_test: int = 0, findings: int = 0, findings_lost: int = 0, leaks: int = 0, leaks_missed: int = 0,
         left_good: int = 0, inside: int = 0, closed_off: int = 0, sender: int = 0, skipped: int = 0,
         used_again: int = 0, header: bytes = layout.HEADER) -> Parts:
    """Returns a side memory. The first word of the stacks is of none. Segments are counted from 1."""
    parent = 1
    head = layout.HEAD.pack(header, events, left_out, ending, signal, process, parent, started, has_checks,
                            is_at_limit, len(faults), len(stacks), quarantine)
    names = b"".join(word.encode("utf-8", "surrogateescape") + b"\0" for word in argv) + b"\0"
    ids = b"".join(layout.BUILD.pack(start, len(text) // 2, bytes.fromhex(text)) for start, text in builds)
    progress = layout.PROGRESS.pack(needed, segment - 1, stated, noted, *[0] * 4, calls, starts, has_begun, findings,
                                    findings_lost, leaks, leaks_missed, left_good, inside, closed_off, sender, skipped,
                                    *[0] * 33, used_again)
    beside = layout.BESIDE_THREADS.pack(last_thread, last_test, first_name.encode())
    return [(0, head), (layout.ARGV_AT, names), (layout.BUILDS_AT, ids), (layout.PROGRESS_AT, progress),
            (layout.BESIDE_THREADS_AT, beside),
            (MAPS_AT, maps.encode() + b"\0"), (INDEX_AT, struct.pack(f"<{len(index)}I", *index)),
            (THREADS_AT, b"".join(threads)), (FAULTS_AT, b"".join(faults)),
            (STACKS_AT, struct.pack(f"<{len(stacks)}Q", *stacks))]


def fill(descriptor: int, parts: Parts) -> int:
    for offset, data in parts:
        os.pwrite(descriptor, data, offset)
    return descriptor


def write_side(path: str, parts: Parts) -> None:
    os.close(fill(os.open(path, os.O_RDWR | os.O_CREAT | os.O_TRUNC, 0o600), parts))


class Program(NamedTuple):
    """A program that was built with -g, and where it lay when it ran."""

    path: str
    places: Dict[str, int]  # addresses after the calls
    maps: str
    build: str


def look_at(path: str) -> Program:
    """Runs a program that prints its places and its map."""
    text = programs.call([path], stdout=subprocess.PIPE, check=True, text=True).stdout
    lines = text.split("\n")
    places = {words[0]: int(words[1], 16) for words in (line.split() for line in lines) if len(words) == 2}
    maps = "".join(line + "\n" for line in lines if len(line.split()) > 4)
    notes = programs.call(["readelf", "-n", path], stdout=subprocess.PIPE, check=True, text=True).stdout
    return Program(path, places, maps, notes.partition("Build ID: ")[2].split("\n")[0])


def start_of(program: Program) -> int:
    """Where the first part of the program lay."""
    return next(int(line.split("-")[0], 16) for line in program.maps.split("\n") if line.endswith(program.path))


def of_program(program: Program, faults: Sequence[bytes], index: Sequence[int], **more: Any) -> Parts:
    return side(program.maps, [(start_of(program), program.build)], faults, index, **more)
