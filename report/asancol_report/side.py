"""The side memory of a recorded process: its module map, and the data on each bad event.

The layout is `struct side` of common/format.h, and common/README.md says it in words. All of it is the recorded
process's own word, and it may write there while this reads. So each number is checked before it is used, and a side
memory that is cut, or that lies, costs some places and nothing else.
"""

from __future__ import annotations

import os
import struct
from bisect import bisect_right
from typing import Any, Dict, Iterator, List, NamedTuple, Optional, Tuple

from .reading import is_regular, open_regular, read_at
from .words import plural

HEADER = b"ASWH\5\0\0\0"
MAGIC = HEADER[:4]
HEAD = struct.Struct("<8sQQIIIIQIIIIQ")
ARGV_AT, ARGV_ROOM = 72, 4000
LAST_AT, LAST = 4072, struct.Struct("<QQII")
HAS_ADDRESS, BY_LOAD, BY_STORE, BY_JUMP, STACK_USED_UP = 1, 2, 4, 8, 16
ACCESSES = {BY_LOAD: "load", BY_STORE: "store", BY_JUMP: "jump"}
BUILDS_AT = 4096
BUILD = struct.Struct("<QB23s")
PROGRESS_AT, PROGRESS = 7680, struct.Struct("<21Q32IQ")
BESIDE_THREADS_AT, BESIDE_THREADS = 8160, struct.Struct("<II16s")
MAPS_AT = 8192
UNCHECKED_AT, UNCHECKED_ROOM = 245760, 1 << 14
INDEX_AT = 1 << 18
ENTRY_BYTES = 4
EVENT_LIMIT = 1 << 24
IS_PIECE = 1 << 31
THREADS_AT = INDEX_AT + EVENT_LIMIT * ENTRY_BYTES
THREAD = struct.Struct("<QIIII16s")
MAX_THREADS = 1 << 12
NO_NUMBER = (1 << 32) - 1  # of a thread
FAULTS_AT = THREADS_AT + MAX_THREADS * THREAD.size
FAULT = struct.Struct("<QQQQQQIIIIIIIIQQQQQII176s32s120s")
KIND_FIELD = 20  # which of its fields has the kind of a finding
VARIABLE_MASK, TEST_SHIFT = 0xff, 8  # in one field: what a fault lies beside, and the text of its test
FOUND = struct.Struct("<QQQ")  # of a finding, in place of the shadow
SHADOW_ROW, SHADOW_ROWS_BESIDE = 16, 5
GRANULE = 8
MAX_FAULTS = 1 << 16
STACKS_AT = FAULTS_AT + MAX_FAULTS * FAULT.size
WORD = struct.Struct("<Q")
MAX_STACK_WORDS = 1 << 22
MAX_FRAMES = 32
MAX_TEXT = 1 << 12

# How a process ended, as it says itself; or it goes on in another segment.
ENDING_NONE, ENDING_EXIT, ENDING_EXEC, ENDING_SIGNAL, ENDING_LOST, ENDING_SEGMENT = range(6)
# What a fault lies beside; the last is a block whose notes went back since it was freed.
VARIABLE_NONE, VARIABLE_STACK, VARIABLE_GLOBAL, VARIABLE_DYNAMIC, VARIABLE_FORGOTTEN = range(5)
# What the recorder has found by itself.
(FINDING_NONE, FINDING_LEAK, FINDING_INDIRECT_LEAK, FINDING_FAMILY, FINDING_SIZE, FINDING_OVERLAP,
 FINDING_NEGATIVE_SIZE, FINDING_OVERFLOW, FINDING_ALIGNMENT, FINDING_TOO_BIG, FINDING_NOT_OWNED,
 FINDING_OTHER_ALIGNMENT, FINDING_CONTAINER, FINDING_DOUBLE_ENDED, FINDING_POINTERS, FINDING_NO_MEMORY,
 FINDING_ODR, FINDING_SHADOW) = range(18)
FINDING_LAST = FINDING_SHADOW

# How many entries of the index are read at once, and of the list of faults.
INDEX_PART = 1 << 14
FAULTS_PART = 1 << 10


def trouble_of(head: bytes) -> str:
    """Returns the flaw of a side file of which this is all before its modules; nothing, if it can be read."""
    if head.startswith(HEADER) and len(head) == MAPS_AT:
        return ""
    if head.startswith(HEADER) or HEADER.startswith(head):
        return f" is cut after {plural(len(head), 'byte')}, as on a full disk: record again to see where each event was"
    if head.startswith(MAGIC):
        return " was recorded by another release: read it with that one"
    return " is not a side file: record with ASANCOL_WHERE=1 to see where each event was"


class Mapping(NamedTuple):
    """A part of a module's code that lay in memory."""

    low: int
    high: int
    offset: int
    inode: int
    path: str
    base: int  # where the module's first part lies
    build: str  # the module's build id; empty if it is not known


# The addresses after calls, the innermost first; none, if nothing is known.
Calls = Tuple[int, ...]


class Thread(NamedTuple):
    """A thread that is not the first one of its process."""

    number: int  # in the order in which threads were created, from 1
    system_number: int
    name: str
    created: Calls
    creator: int  # its number in the list of threads; 0: the first thread

    @property
    def known_number(self) -> int:
        """As the system has it; 0 if it is not known."""
        return self.system_number if self.system_number != NO_NUMBER else 0


class Fault(NamedTuple):
    """The recorder's data on a bad access or free. Unknown parts are empty or 0."""

    place: Calls
    block: int  # 0: none is near
    block_size: int
    allocated: Calls
    freed: Calls
    variable: int
    line: int  # where a variable on the stack is declared
    name: str
    threads: Tuple[int, int, int]  # of the access, the malloc and the free: numbers in the list; 0: the first thread,
    # and one that is in no list is not known
    start: int  # of the whole access, as the program has asked for it
    size: int
    shadow: bytes  # rows round the bad byte
    shadow_start: int  # the first byte of which `shadow` speaks
    frame: int  # where the frame of a variable begins
    function: int  # an address in its function
    variables: str  # how the compiler describes that frame; of a global that was defined twice, the other definition
    call: str  # the function of the C library that has made the access, or "sys_" and a system call
    test: str = ""  # that was running
    # Of a finding of the recorder:
    kind: int = FINDING_NONE
    count: int = 0  # type: ignore[assignment]  # how often it came up; of a leak how many blocks are lost
    after: int = 0  # how many events came before it
    other: int = 0  # what common/format.h says of each kind


def path_of(text: bytes) -> str:
    """Returns the path of a line of the map, as the file is called now."""
    path = text.replace(b"\\012", b"\n")
    if path.endswith(b" (deleted)"):
        path = path[: -len(b" (deleted)")]
    return os.fsdecode(path)


def text_of(field: bytes) -> str:
    return os.fsdecode(field.split(b"\0")[0])


def ranges_shared(maps: List[Mapping]) -> List[Tuple[int, int]]:
    """Returns where modules lay that are not the same, of parts in the order of their addresses."""
    shared: List[Tuple[int, int]] = []
    before: List[Mapping] = []
    for mapping in maps:
        before = [it for it in before if it.high > mapping.low]
        shared += [(mapping.low, min(it.high, mapping.high)) for it in before
                   if (it.path, it.inode) != (mapping.path, mapping.inode)]
        before.append(mapping)
    return shared


class Last(NamedTuple):
    """Where a signal has met a process."""

    calls: Calls = ()
    address: Optional[int] = None  # which could not be accessed
    access: str = ""  # a word of ACCESSES, if that is known
    is_stack_used_up: bool = False
    thread: int = 0  # as the threads of a fault
    test: str = ""  # that was running


class Side:
    """The side memory behind a descriptor. Whoever makes one closes it."""

    def __init__(self, descriptor: int) -> None:
        self.descriptor = descriptor
        head = read_at(descriptor, 0, HEAD.size) if is_regular(descriptor) else b""
        self.is_good = len(head) == HEAD.size and head.startswith(HEADER)
        fields = HEAD.unpack(head) if self.is_good else (b"",) + (0,) * 12
        _, self.events, self.left_out, self.ending, self.signal, self.process, self.parent = fields[:7]
        self.started, self.has_checks, self.is_at_limit, fault_count, stack_words, self.quarantine = fields[7:]
        self.fault_count = min(fault_count, MAX_FAULTS)
        self.stack_words = min(stack_words, MAX_STACK_WORDS)
        progress = read_at(descriptor, PROGRESS_AT, PROGRESS.size) if self.is_good else b""
        fields = PROGRESS.unpack(progress if len(progress) == PROGRESS.size else bytes(PROGRESS.size))
        self.needed, before, self.stated, self.noted = fields[:4]
        self.finding_count, self.findings_lost, self.leak_count, self.leaks_missed = fields[11:15]
        self.inside = fields[16]
        self.segment = before + 1
        self.stacks: Dict[int, Calls] = {}
        self.maps = self.read_maps() if self.is_good else []
        self.lows = [mapping.low for mapping in self.maps]
        # How far each module lies from where it was linked for: from its first part on, until its file says more.
        self.bases = {mapping.path: mapping.base for mapping in self.maps}
        self.shared = ranges_shared(self.maps)
        self.part: Tuple[int, ...] = ()
        self.part_number = -1

    @classmethod
    def open(cls, path: str) -> Side:
        """Opens a side file. OSError, if that fails."""
        return cls(open_regular(path))

    def close(self) -> None:
        os.close(self.descriptor)

    def last(self) -> Last:
        """Returns where a signal has met the process, and how."""
        text = read_at(self.descriptor, LAST_AT, LAST.size) if self.is_good else b""
        if len(text) < LAST.size:
            return Last()
        place, address, stack, how = LAST.unpack(text)
        access = next((word for flag, word in ACCESSES.items() if how & flag), "")
        is_known = bool(how & HAS_ADDRESS)
        thread, test, _ = self.beside_threads()
        return Last(self.calls(place, stack), address if is_known else None, access, bool(how & STACK_USED_UP), thread,
                    self.read_text(test))

    def beside_threads(self) -> Tuple[int, int, str]:
        """Returns the thread that a signal has met and the test, as those of a fault, and the name of the first
        thread."""
        text = read_at(self.descriptor, BESIDE_THREADS_AT, BESIDE_THREADS.size) if self.is_good else b""
        if len(text) < BESIDE_THREADS.size:
            return 0, 0, ""
        last, test, name = BESIDE_THREADS.unpack(text)
        return last, test, text_of(name)

    def argv(self) -> List[str]:
        """Returns the command line, as far as it was kept."""
        text = read_at(self.descriptor, ARGV_AT, ARGV_ROOM) if self.is_good else b""
        return [os.fsdecode(word) for word in text.split(b"\0\0")[0].split(b"\0")] if text.strip(b"\0") else []

    def unchecked(self) -> List[str]:
        """Returns the unchecked code: names, libraries of the system after a slash, `+N` for N more."""
        return [it for it in self.unchecked_lines() if not it.startswith("!")]

    def suppressions(self) -> List[str]:
        """Returns the suppressions that the program has by a function of its own."""
        return [it[1:] for it in self.unchecked_lines() if it.startswith("!")]

    def unchecked_lines(self) -> List[str]:
        text = read_at(self.descriptor, UNCHECKED_AT, UNCHECKED_ROOM) if self.is_good else b""
        return [os.fsdecode(line) for line in text.split(b"\0")[0].split(b"\n") if line]

    def read_builds(self) -> Dict[int, str]:
        """Returns the build id of each module, by where its first part lies."""
        text = read_at(self.descriptor, BUILDS_AT, PROGRESS_AT - BUILDS_AT)
        builds = {}
        for start, length, name in BUILD.iter_unpack(text[: len(text) // BUILD.size * BUILD.size]):
            if start == 0:
                break
            builds[start] = name[:length].hex()
        return builds

    def read_maps(self) -> List[Mapping]:
        """Returns the parts of modules that are code, in the order of their addresses."""
        builds = self.read_builds()
        text = read_at(self.descriptor, MAPS_AT, UNCHECKED_AT - MAPS_AT).split(b"\0")[0]
        first: Dict[str, Tuple[int, str]] = {}
        maps = []
        for line in text.split(b"\n"):
            words = line.split(None, 5)
            if len(words) < 6 or not words[5].startswith(b"/"):
                continue
            try:
                low, high = (int(word, 16) for word in words[0].split(b"-"))
                offset, inode = int(words[2], 16), int(words[4])
            except ValueError:
                continue
            path = path_of(words[5])
            if path not in first or (offset == 0 and low in builds):
                first[path] = (low, builds.get(low, ""))
            if b"x" in words[1]:
                maps.append(Mapping(low, high, offset, inode, path, *first[path]))
        return sorted(maps)

    def mapping(self, address: int) -> Optional[Mapping]:
        """Returns the part of a module that has an address of code. None too, if another module had its code there
        before or after: nobody knows then which of them is meant."""
        at = bisect_right(self.lows, address) - 1
        if at < 0 or address >= self.maps[at].high or any(low <= address < high for low, high in self.shared):
            return None
        return self.maps[at]

    def look_up(self, event: int) -> Tuple[int, bool]:
        """Returns the number of an event's fault, from 1, or 0 if it has none; and whether it is a further piece of an
        access, and no report by itself."""
        entry = self.entry_of(event)
        number = entry & ~IS_PIECE
        return (number, number != entry) if 1 <= number <= self.fault_count else (0, False)

    def entry_of(self, event: int) -> int:
        number, within = divmod(event - 1, INDEX_PART)
        if number != self.part_number:
            self.part_number = number
            self.part = self.read_part(number)
        return self.part[within] if within < len(self.part) else 0

    def read_part(self, number: int) -> Tuple[int, ...]:
        first = number * INDEX_PART
        if not self.is_good or not 0 <= first < EVENT_LIMIT:
            return ()
        text = read_at(self.descriptor, INDEX_AT + first * ENTRY_BYTES, INDEX_PART * ENTRY_BYTES)
        count = len(text) // ENTRY_BYTES
        return struct.unpack_from(f"<{count}I", text)

    def fault(self, number: int) -> Optional[Fault]:
        """Returns a fault by its number, from 1."""
        if not 1 <= number <= self.fault_count:
            return None
        text = read_at(self.descriptor, FAULTS_AT + (number - 1) * FAULT.size, FAULT.size)
        return self.fault_of_fields(FAULT.unpack(text)) if len(text) == FAULT.size else None

    def findings(self) -> Iterator[Fault]:
        """Yields the findings of the recorder in the list of faults. One whose count is 0 is not whole."""
        for first in range(0, self.fault_count if self.finding_count else 0, FAULTS_PART):
            count = min(FAULTS_PART, self.fault_count - first)
            text = read_at(self.descriptor, FAULTS_AT + first * FAULT.size, count * FAULT.size)
            for fields in FAULT.iter_unpack(text[: len(text) // FAULT.size * FAULT.size]):
                if FINDING_NONE < fields[KIND_FIELD] <= FINDING_LAST:
                    found = self.fault_of_fields(fields)
                    if found.count:
                        yield found

    def fault_of_fields(self, fields: Tuple[Any, ...]) -> Fault:
        _, place, block, block_size, allocated, freed, variable, line = fields[:8]
        start, size, shadow_start, frame, function, variables, kind, shadow, call, name = fields[14:]
        variable, test = variable & VARIABLE_MASK, variable >> TEST_SHIFT
        if variable > VARIABLE_FORGOTTEN:
            variable = VARIABLE_NONE
        calls = [self.calls(*it) for it in zip((place, allocated, freed), fields[8:11])]
        access, allocated_by, freed_by = fields[11:14]
        found = FOUND.unpack_from(shadow) if kind else (0, 0, 0)
        return Fault(calls[0], block, block_size, calls[1], calls[2], variable, line, text_of(name),
                     (access, allocated_by, freed_by), start, size, shadow if shadow_start else b"", shadow_start,
                     frame, function, self.read_text(variables), text_of(call), self.read_text(test), kind, *found)

    def thread(self, number: int) -> Optional[Thread]:
        """Returns a thread by its number in the list, from 1."""
        if not 1 <= number <= MAX_THREADS:
            return None
        text = read_at(self.descriptor, THREADS_AT + (number - 1) * THREAD.size, THREAD.size)
        if len(text) < THREAD.size:
            return None
        created, stack, creator, order, system_number, name = THREAD.unpack(text)
        calls = self.calls(created, stack)
        return Thread(order, system_number, text_of(name), calls, creator) if order and system_number else None

    def calls(self, place: int, number: int) -> Calls:
        """Returns the stack of a place, or the place alone."""
        if place == 0:
            return ()
        if number not in self.stacks:
            self.stacks[number] = self.read_stack(number)
        stack = self.stacks[number]
        return stack if stack[:1] == (place,) else (place,)

    def read_text(self, number: int) -> str:
        """Returns a text among the stacks, by the number of its first word."""
        if not 0 < number < self.stack_words:
            return ""
        at = STACKS_AT + number * WORD.size
        length = read_at(self.descriptor, at, WORD.size)
        size = WORD.unpack(length)[0] if len(length) == WORD.size else 0
        return text_of(read_at(self.descriptor, at + WORD.size, size)) if size <= MAX_TEXT else ""

    def read_stack(self, number: int) -> Calls:
        if not 0 < number < self.stack_words:
            return ()
        text = read_at(self.descriptor, STACKS_AT + number * WORD.size, (1 + MAX_FRAMES) * WORD.size)
        words = [word for word, in WORD.iter_unpack(text[: len(text) // WORD.size * WORD.size])]
        count = words[0] if words else 0
        return tuple(words[1:count + 1]) if count <= MAX_FRAMES else ()
