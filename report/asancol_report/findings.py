"""A finding: a place in a program at which bad events were seen, with all that is known of it."""

from __future__ import annotations

import functools
import hashlib
import os
import re
from typing import Dict, Iterable, Iterator, List, NamedTuple, Optional, Tuple

from .class_names import ATTEMPTS, LEAK, NEGATIVE_SIZE, TITLES
from .functions import brief
from .leaks import at_one_place, leak_text, Leaks
from .sources import Sources
from .variables import shown_name, Variable
from .words import plural, printable, stable_path

HEAP, STACK, GLOBAL, DYNAMIC = "heap", "stack", "global", "dynamic"
# A bad byte no further from a block than this is in its own redzone: of another one nobody knows which block was meant.
REDZONE = 32
FINGERPRINT_DIGITS = 16
# The most processes and tests that a tally names, and the most tests in a line.
MAX_NUMBERS = MAX_TESTS = 1000
MAX_TESTS_SAID = 3
# Of a block that the recorder has no notes on any more.
FORGOTTEN = "freed long ago: its exact size and its stacks are no longer kept"
# A file of the system, whose inlined functions stand in all programs: in an `include` below `/usr`, here or in a copy.
SYSTEM_HEADER = re.compile(r"(?:^|/)usr/(?:local/)?(?:include/|lib\w*/(?:.+/)?include/)")
# The library of Rust, as rustc and packages of it name its sources.
RUST_LIBRARY = re.compile(r"\A(?:/rustc|/usr/src/rustc-[^/]+)/library/|/rustlib/src/rust/library/")
# A library of the system. What has called it stands for a crash in it, whether it has lines or not.
SYSTEM_LIBRARY = re.compile(r"/(?:usr/)?lib(?:32|64|x32)?/")
# What each program of C and C++ stands on.
LANGUAGE_LIBRARY = re.compile(r"/(?:ld-linux[^/]*|lib(?:c|m|pthread|dl|rt|gcc_s|stdc\+\+|c\+\+|c\+\+abi))\.so[^/]*$")


class Frame(NamedTuple):
    """A call that was running. Unknown parts are empty or 0."""

    module: str = ""
    offset: int = 0  # from where the module was linked for; without a module the address
    build: str = ""  # the module's build id
    function: str = ""
    file: str = ""
    line: int = 0
    column: int = 0
    is_inlined: bool = False
    text: str = ""  # of the line
    note: str = ""  # in place of all others: why nothing is known, except the program as the module of a crash
    # The column in `text`, from 1; 0 if it is not known. None: the line may not be the one that was built.
    caret: Optional[int] = None
    is_bare: bool = False  # of the program, but its source was compiled without -g


# Inner calls first.
Stack = Tuple[Frame, ...]


UNKNOWN_THREAD = -1


class Thread(NamedTuple):
    """A thread of a process."""

    number: int  # in the order in which threads were created; 0: the first one of the process, if it has a name
    creator: int = 0  # the number of the one that has created it
    name: str = ""
    system_number: int = 0
    created: Stack = ()

    @property
    def words(self) -> str:
        return f"T{self.number} ({self.name})" if self.name else f"T{self.number}"


class Threads(NamedTuple):
    """The threads of an access, and of the malloc and the free of its block, by number. 0 is the first one, or nothing
    is known of that malloc or free."""

    access: int = 0
    allocated: int = 0
    freed: int = 0
    all: Tuple[Thread, ...] = ()  # these, each with whoever has created it; without the first one, if it has no name

    def words(self, number: int) -> str:
        if number == UNKNOWN_THREAD:
            return "an unknown thread"
        return next((it.words for it in self.all if it.number == number), f"T{number}")

    def where(self, number: int, stack: Stack = ()) -> str:
        """Returns what follows a word such as "freed"; nothing for the first thread, unless it has a name and something
        is known of that call."""
        is_said = number or (any(it.number == 0 for it in self.all) and not any(it.note for it in stack))
        return f" in {'' if number == UNKNOWN_THREAD else 'thread '}{self.words(number)}" if is_said else ""

    def titles(self) -> Iterator[Tuple[str, Stack]]:
        """Yields how each thread was created: a title, and the stack."""
        for thread in self.all:
            if thread.number:
                yield f"Thread {thread.words} created by {self.words(thread.creator)} at", thread.created


class Block(NamedTuple):
    """The block or the variable that is nearest to a bad byte."""

    address: int
    size: int
    kind: str = HEAP
    name: str = ""  # of a variable
    file: str = ""  # where it is declared. Of a variable on the stack only the line is known
    line: int = 0
    frame: int = 0  # where the frame of a variable on the stack begins; 0: not known
    function: Optional[Frame] = None  # that has this frame
    variables: Tuple[Variable, ...] = ()  # of this frame


class Rows(NamedTuple):
    """The shadow round a bad byte: a byte for each granule, from an address on."""

    start: int = 0
    shadow: bytes = b""


class Tally(NamedTuple):
    """What one run has of a finding."""

    times: int
    processes: int
    process: int  # the first one's number in its run
    pid: int
    event: int  # the first one's number in its segment; 0 if it has none, as a finding of the recorder
    segment: int = 1  # the number of the first one's segment in its process
    after: int = 0  # of one without an event: how many events came before it
    number: int = 0  # and which of the findings of its recorder in that segment it is
    lost: Leaks = Leaks()  # of a leak: what all processes have lost there
    is_awaited: bool = False  # each process has halted there, which its parent has waited for
    numbers: Tuple[int, ...] = ()  # of the first processes in their run, up to MAX_NUMBERS; none: the first one's
    tests: Tuple[str, ...] = ()  # in which it came up, the first ones, up to MAX_TESTS

    @property
    def moment(self) -> Tuple[int, int, bool, int]:
        """When it was, seen from others of its process."""
        return self.segment, self.event or self.after, not self.event, self.number


def joined(each: Iterable[Tuple[str, ...]]) -> Tuple[str, ...]:
    """Returns the first names of tests, each once."""
    return tuple(dict.fromkeys(name for names in each for name in names))[:MAX_TESTS]


class Place(NamedTuple):
    """What tells findings apart. The first field is the same whatever else is in the line, for baselines."""

    fingerprint: str
    line: int
    column: int
    class_name: str
    near: Tuple[str, ...]  # the variable, or where the block was allocated; of a leak all calls that allocated it
    rule: str  # the suppression that the event itself matches: other callers may match none


class Finding:
    """A finding of one or more runs. What differs from event to event is that of the first one."""

    __slots__ = ("class_name", "raw_class", "access", "size", "call", "address", "bad", "shadow", "rows", "stack",
                 "block",
                 "allocated", "freed", "threads", "fingerprint", "runs", "suppression", "is_known", "follows",
                 "shares_block", "also", "later",
                 "ordinal", "by_recorder", "said", "is_forgotten", "allocator", "is_awaited", "rule")

    def __init__(self, class_name: str, access: str, size: Optional[int], address: int, bad: Optional[int]) -> None:
        self.class_name = class_name
        self.raw_class = class_name  # as asancol has it
        self.access = access
        self.size = size
        self.call = ""  # as of a fault
        self.address = address
        self.bad = bad  # None, if the event has no bad byte but is bad as a whole
        self.shadow = ""
        self.rows = Rows()
        self.stack: Stack = ()
        self.block: Optional[Block] = None
        self.allocated: Stack = ()
        self.freed: Stack = ()
        self.threads = Threads()
        self.fingerprint = ""
        self.runs: Dict[int, Tally] = {}
        self.suppression = ""  # the line that suppresses it
        self.is_known: Optional[bool] = None  # whether it is in the baseline; None if there is none
        self.follows: Optional[Finding] = None  # an earlier report of the process, which may be the cause
        self.shares_block = False  # and is about the same block or variable
        self.also: List[Finding] = []  # those that follow this one, and share its block
        self.later: List[Finding] = []  # and the others
        self.ordinal = 1  # which of the findings with this fingerprint it is
        self.by_recorder = False  # no checker has judged it: it is the recorder's word
        self.said = ""  # what that is, in words
        self.is_forgotten = False  # the recorder keeps no notes on the block any more, which was freed long ago
        self.allocator = ""  # the function that has allocated the block
        self.rule = ""  # the suppression that its own stacks matched when it came up
        self.is_awaited = False  # parents have waited for all that ended there, and the command has ended well

    @property
    def counts(self) -> bool:
        return not self.suppression and not self.is_known and not self.is_awaited

    @property
    def is_consequence(self) -> bool:
        """Whether something that was reported before may have led to it."""
        return self.follows is not None

    def forget_consequences(self) -> None:
        self.follows, self.shares_block, self.also, self.later = None, False, [], []

    @property
    def count(self) -> int:
        return sum(tally.times for tally in self.runs.values())

    @property
    def processes(self) -> int:
        return sum(tally.processes for tally in self.runs.values())

    @property
    def tests(self) -> Tuple[str, ...]:
        """The tests that were running."""
        return joined(tally.tests for tally in self.runs.values())

    @property
    def in_tests(self) -> str:
        """The first tests in words; nothing, if none is known."""
        tests = self.tests
        if len(tests) < 2:
            return f"in test {tests[0]}" if tests else ""
        first = tests[:MAX_TESTS_SAID]
        more = [f"{len(tests) - len(first)} more"] if len(tests) > len(first) else []
        *others, last = (*first, *more)
        return f"in tests {', '.join(others)} and {last}"

    @property
    def first(self) -> Tally:
        return next(iter(self.runs.values()))

    @property
    def first_process(self) -> Tuple[int, int]:
        """The run and the process in which it came up first."""
        run = min(self.runs)
        return run, self.runs[run].process

    @property
    def order(self) -> Tuple[int, ...]:
        """What findings are sorted by: the run, the process and the event at which it came up first."""
        return (*self.first_process, *self.runs[min(self.runs)].moment)

    @property
    def own_stack(self) -> Stack:
        """The frames of the access from the one on that stands for it."""
        return own_frames(self.stack)

    @property
    def rule_stack(self) -> Stack:
        """The frames that a suppression can name: of a leak with all callers, since they may share a function that
        allocates for them."""
        return self.stack[first_own_of(self.stack):] if self.is_leak else self.own_stack

    @property
    def top(self) -> Frame:
        """The frame that a reader wants to see."""
        return next(iter(self.own_stack), Frame())

    @property
    def place(self) -> Place:
        top = self.top
        return Place(self.fingerprint, top.line, top.column, self.class_name, self.near, self.rule)

    @property
    def near(self) -> Tuple[str, ...]:
        if self.is_leak:
            return calls_to_leak(self.stack)
        block = self.block
        if block is None:
            return ()
        top = next(iter(own_frames(self.allocated)), Frame())
        return near_of(block.kind, block.name, self.bad_byte - block.address, block.size,
                       (top.function, top.file, top.line))

    @property
    def classes(self) -> Tuple[str, str]:
        """What the class is called: by its own name, and as asancol has it."""
        return self.class_name, self.raw_class

    @property
    def what(self) -> str:
        """The access in words."""
        if self.by_recorder:
            lost = self.lost
            return leak_text(self.class_name, lost) if lost.blocks else self.said
        if self.class_name in ATTEMPTS:
            return ATTEMPTS[self.class_name]
        call = f" in {printable(self.call)}" if self.call else ""
        if self.class_name == NEGATIVE_SIZE:
            return f"(size={(self.size or 0) - (1 << 64)}){call}"
        if self.access == "free" or self.size is None:
            return self.access + call
        return f"{self.access} of {plural(self.size, 'byte')}{call}"

    @property
    def is_leak(self) -> bool:
        return self.raw_class == LEAK

    @property
    def lost(self) -> Leaks:
        """What a leak has lost in all runs; nothing, if one of them does not say in how many blocks."""
        each = [tally.lost for tally in self.runs.values()]
        return at_one_place(each) if all(it.blocks for it in each) else Leaks()

    @property
    def title(self) -> str:
        if self.class_name in ATTEMPTS:
            return self.what
        return f"{TITLES.get(self.class_name, self.class_name)}: {self.what}"

    @property
    def has_address(self) -> bool:
        """Whether it is about a place in memory."""
        return not self.by_recorder or self.address != 0

    @property
    def bad_byte(self) -> int:
        return self.address if self.bad is None else self.bad

    @property
    def where(self) -> str:
        """Where the bad byte is, seen from the block or the variable; empty if none is near."""
        if self.block is None:
            return ""
        function = self.block.function.function if self.block.function else ""
        frame = f", in frame of {brief(function)}" if function else ""
        is_inside = 0 <= self.bad_byte - self.block.address < self.block.size
        has_ended = is_inside and self.class_name in ENDED and self.block.kind == STACK
        ended = f", {ENDED[self.class_name]}" if has_ended else ""
        whose = in_words(self.block, self.is_in_freed, self.is_forgotten)
        return beside(self.block, self.bad_byte, whose) + ended + frame

    @property
    def where_again(self) -> str:
        """The same in short, below a report that says what the block or the variable is."""
        return beside(self.block, self.bad_byte, in_short(self.block)) if self.block else ""

    @property
    def is_in_freed(self) -> bool:
        return bool(self.freed) or self.class_name in ("heap-use-after-free", "double-free")

    def set_fingerprint(self, sources: Sources) -> None:
        """Names the finding by what stays if lines move."""
        words = [self.raw_class, self.access]
        for frame in self.own_stack:
            words += [frame.function, stable_path(frame.file, sources.root) or os.path.basename(frame.module)]
            if frame.text:
                words += [frame.text, str(sources.ordinal(frame.file, frame.line, frame.function))]
            else:
                words.append(f"{frame.build}+{frame.offset:x}")
        name = "\0".join(words).encode("utf-8", "surrogateescape")
        self.fingerprint = hashlib.sha256(name).hexdigest()[:FINGERPRINT_DIGITS]


# Why a variable can't be used any more.
SCOPE_ENDED = "whose scope has ended"
ENDED = {"stack-buffer-overflow": SCOPE_ENDED, "stack-use-after-scope": SCOPE_ENDED,
         "stack-use-after-return": "whose function has returned"}


def near_of(kind: str, name: str, distance: int, size: int, allocated: Tuple[str, str, int]) -> Tuple[str, ...]:
    """Returns what tells apart two bugs at one place: the name of the variable, or where the block was allocated, by
    function, file and line. Addresses differ from process to process."""
    if kind != HEAP:
        return kind, name
    is_near = -REDZONE <= distance < size + REDZONE
    function, file, line = allocated
    return (function, os.path.basename(file), str(line)) if is_near else ()


def calls_to_leak(stack: Stack) -> Tuple[str, ...]:
    """Returns what tells apart two leaks at one place: all calls, since many callers may share a function that
    allocates for them, and a suppression may name one of them."""
    return tuple(f"{it.function}@{os.path.basename(it.file)}:{it.line}" if it.function
                 else f"{os.path.basename(it.module)}+{it.offset:x}" for it in stack)


@functools.lru_cache(maxsize=1 << 12)
def is_of_system(file: str) -> bool:
    return SYSTEM_HEADER.search(file) is not None or RUST_LIBRARY.search(file) is not None


def first_own(places: Iterable[Tuple[str, int, str, bool]]) -> Tuple[int, int]:
    """Returns which frame stands for a place, and its line, from the files, lines and modules of all frames, and
    whether they are bare: the first with a line that is in no header of the system and not of the languages, or that is
    bare, or else the first with a line, or else the first. Frames of the system's libraries that come after one of the
    program are what has called the program: they count only as the last resort."""
    found: Dict[bool, Tuple[int, int]] = {}  # by whether it may have called the program, or is a language's
    in_program = False
    for at, (file, line, module, is_bare) in enumerate(places):
        of_library = SYSTEM_LIBRARY.match(module) is not None
        is_last_resort = (of_library and in_program) or LANGUAGE_LIBRARY.search(module) is not None
        in_program = in_program or not of_library
        if is_bare or (line and not is_last_resort and not is_of_system(file)):
            return at, line
        if is_last_resort not in found or (line and not found[is_last_resort][1]):
            found[is_last_resort] = at, line
    return found.get(False) or found.get(True) or (0, 0)


def first_own_of(stack: Stack) -> int:
    """Returns which frame stands for the place."""
    return first_own((frame.file, frame.line, frame.module, frame.is_bare) for frame in stack)[0]


def own_frames(stack: Stack) -> Stack:
    """Returns the frame that stands for the place, and those that it was inlined into."""
    first = first_own_of(stack)
    last = next((at for at in range(first, len(stack)) if not stack[at].is_inlined), first)
    return stack[first:last + 1]


def beside(block: Block, bad: int, whose: str) -> str:
    """Returns where a byte is, seen from a block or a variable that is called so."""
    distance = bad - block.address
    if distance < 0:
        return f"{plural(-distance, 'byte')} before {whose}"
    if distance >= block.size:
        return f"{plural(distance - block.size, 'byte')} past the end of {whose}"
    return f"byte {distance} of {whose}"


def in_short(block: Block) -> str:
    if block.kind == HEAP:
        return "the block"
    if block.kind == DYNAMIC:
        return "the array"
    return f"'{shown_name(block.name)}'" if block.name else "the variable"


def in_words(block: Block, is_freed: bool, is_forgotten: bool) -> str:
    if block.kind == HEAP:
        most = "at most " if is_forgotten else ""
        return f"a {'freed ' if is_freed else ''}block of {most}{plural(block.size, 'byte')}"
    size = plural(block.size, "byte")
    if block.kind == DYNAMIC:
        return f"a dynamic array of {size} on the stack"
    whose = f"'{shown_name(block.name)}' ({size})" if block.name else f"a variable of {size}"
    where = whose + (" on the stack" if block.kind == STACK else ", a global variable")
    if block.file:
        where += f", declared at {block.file}:{block.line}" if block.line else f", declared in {block.file}"
    elif block.line:
        where += f", declared in line {block.line}"
    return where


def place_text(frame: Frame) -> str:
    """Returns where a frame is: file, line and column, or else module and offset."""
    if frame.file:
        line = f":{frame.line}" if frame.line else ""
        return frame.file + line + (f":{frame.column}" if frame.line and frame.column else "")
    if frame.note:
        return frame.module or frame.note
    return f"({frame.module}+0x{frame.offset:x})" if frame.module else f"0x{frame.offset:x}"
