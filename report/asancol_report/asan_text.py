"""The report in AddressSanitizer's own words, of LLVM 16 and later, for tools that read those."""

from __future__ import annotations

import re
from typing import Dict, Iterable, Iterator, List, Optional, Tuple

from . import shadow_rows
from .by_recorder import signed
from .class_names import ALIGNMENTS, ATTEMPTS, MISMATCH, NEGATIVE_SIZE, SIZE_MISMATCH, SIZES_ASKED, TOO_BIG
from .crashes import Crash
from .findings import Block, DYNAMIC, Finding, Frame, GLOBAL, HEAP, place_text, Stack, Threads, UNKNOWN_THREAD
from .functions import brief
from .leaks import total
from .results import Process, Results
from .text import Text
from .variables import shown_name, Variable
from .words import printable, shown_path

RULE = "=" * 65
# The functions that free what a function of each family has allocated, as a stack names both.
ALLOCATING = {"operator new": "operator new(unsigned long)", "operator new []": "operator new[](unsigned long)"}
FREEING = {"malloc": "free", "operator new": "operator delete(void*)", "operator new []": "operator delete[](void*)"}
OPERATORS = {"operator delete": "operator delete(void*)", "operator delete []": "operator delete[](void*)"}
# How the call of a hook of a system call begins.
HOOK = "sys_"
# The text about an access, and about a signal's: a jump reads instructions.
ACCESSES = {"load": "READ", "store": "WRITE"}
SIGNALLED = {**ACCESSES, "jump": "READ"}
# Classes of crashes by an access. If its address is not known, none is named.
BY_ACCESS = ("SEGV", "BUS")
WILD_HINT = ("Hint: this fault was caused by a dereference of a high value address (see register values below).  "
             "Disassemble the provided pc to learn which register was used.")
# Addresses below this are of the page that no program has.
ZERO_PAGE = 4096
# The largest request, as AddressSanitizer has it.
MAX_SIZE = 1 << 40
HINTS = {MISMATCH: "alloc_dealloc_mismatch", SIZE_MISMATCH: "new_delete_type_mismatch"}
CONTAINER = "container-overflow"
CONTAINER_HINT = (
    "HINT: if you don't care about these errors you may set ASAN_OPTIONS=detect_container_overflow=0.",
    "If you suspect a false positive see also: "
    "https://github.com/google/sanitizers/wiki/AddressSanitizerContainerOverflow.")
# What stands in its legend, and in ours not.
LEGEND = shadow_rows.LEGEND.replace("06 07\n", "06 07 \n").replace("bb\n", "bb\n  ASan internal:           fe\n")

# What the recorder says of two alignments, and of another size.
ALIGNMENTS_SAID = re.compile(r"(?: of (?P<size>\d+) bytes?)? with (?:alignment (?P<said>\d+)|no alignment), and .* "
                             r"with (?:alignment (?P<made>\d+)|no alignment) ")

# How far the modules of a process lay from where they were linked for, by their paths.
Bases = Dict[str, int]


class AsanText(Text):
    """Writes findings as AddressSanitizer would. Each stands by itself, and the leaks of a process under one head."""

    for_leaks = "ASAN_OPTIONS=detect_leaks=1"

    def findings_text(self, findings: Iterable[Finding], results: Results) -> Iterator[str]:
        """Yields all of these: each by itself, and then the leaks of each process."""
        leaks: Dict[int, List[Finding]] = {}
        for finding in findings:
            if finding.is_leak:
                leaks.setdefault(finding.first.pid, []).append(finding)
            else:
                yield from self.finding_of(finding, results)
        for pid, those in leaks.items():
            yield from self.leaks(pid, those, results)

    def all_places(self, findings: Iterable[Finding], results: Results) -> None:
        self.write(self.findings_text(findings, results))

    def new_places(self, findings: Iterable[Finding], results: Results) -> None:
        counted = [finding for finding in findings if finding.counts]
        self.write(self.findings_text(sorted(counted, key=lambda it: it.order), results))

    def alone(self, finding: Finding, results: Results) -> Iterator[str]:
        return self.findings_text([finding], results)

    def last_line(self, first: Iterable[Finding]) -> Iterator[str]:
        return iter(())

    def left_out(self, places: int) -> Iterator[str]:
        return iter(())

    # Reports.

    def place_of(self, top: Frame) -> str:
        """A module is followed by its build id, as in a frame."""
        if top.file or top.note or not top.build:
            return super().place_of(top)
        return module_of(top) + (f" in {printable(brief(top.function))}" if top.function else "")

    def finding_of(self, finding: Finding, results: Results) -> Iterator[str]:
        bases = results.bases_of(finding)
        yield RULE
        yield from self.head(finding, self.pc(finding.stack, bases))
        own = list(filter(None, [library_function(finding)]))
        yield from self.frames(finding.stack, bases, own)
        yield from self.where_it_is(finding, bases)
        yield from self.created(finding.threads, bases)
        if finding.class_name == CONTAINER:
            yield from CONTAINER_HINT
        yield f"SUMMARY: AddressSanitizer: {finding.class_name} {self.place_of(finding.top)}"
        if finding.rows.shadow and finding.access in ACCESSES and finding.class_name != NEGATIVE_SIZE:
            yield from shadow_rows.lines(finding.rows, asan_address(finding))
            yield LEGEND
        if finding.class_name in HINTS:
            yield (f"=={finding.first.pid}==HINT: if you don't care about these errors you may set "
                   f"ASAN_OPTIONS={HINTS[finding.class_name]}=0")
        if results.has_halted(finding):
            yield f"=={finding.first.pid}==ABORTING"

    def head(self, finding: Finding, pc: int) -> Iterator[str]:
        """The first lines, down to the stack."""
        error = f"=={finding.first.pid}==ERROR: AddressSanitizer:"
        address, thread = f"0x{finding.bad_byte:012x}", thread_name(finding.threads, finding.threads.access)
        name = finding.class_name
        if name in ATTEMPTS:
            of = f" {address} in" if name == "double-free" else f": {address} in"
            on = " on" if name == "double-free" else ""
            yield f"{error} {ATTEMPTS[name]}{on}{of} thread {thread}{':' if on else ''}"
        elif finding.access in ACCESSES and name != NEGATIVE_SIZE:
            address = f"0x{asan_address(finding):012x}"
            yield f"{error} {name} on address {address} at pc 0x{pc:012x} {invented_registers(pc)}"
            yield f"{ACCESSES[finding.access]} of size {finding.size or 1} at {address} thread {thread}"
        else:
            yield f"{error} {words_of_call(finding, address, thread)}"
            if name == SIZE_MISMATCH:
                yield from sizes_of(finding)

    def frames(self, stack: Stack, bases: Bases, own: Iterable[str] = ()) -> Iterator[str]:
        """A stack, after functions that it does not have itself: their code is that of whoever has called them."""
        known = [frame for frame in stack if not frame.note]
        at = 0
        for name in own:
            if known:
                yield f"    #{at} 0x{address_of(known[0], bases):x} in {printable(name)} {module_of(known[0])}"
                at += 1
        for frame in known:
            yield f"    #{at} {self.asan_frame(frame, bases)}"
            at += 1
        if not known:
            yield "    <empty stack>"
        yield ""

    def asan_frame(self, frame: Frame, bases: Bases) -> str:
        function = f"in {printable(frame.function)}" if frame.function else ""
        where = printable(shown_path(place_text(frame), self.root)) if frame.file else module_of(frame)
        return f"0x{address_of(frame, bases):x} {function} {where}"

    @staticmethod
    def pc(stack: Stack, bases: Bases) -> int:
        """The address after the innermost call or access."""
        return address_of(stack[0], bases) + 1 if stack and not stack[0].note else 0

    def created(self, threads: Threads, bases: Bases) -> Iterator[str]:
        for thread in threads.all:
            if thread.number:
                name = thread_name(threads, thread.number)
                yield f"Thread {name} created by {thread_name(threads, thread.creator)} here:"
                yield from self.frames(thread.created, bases, ["pthread_create"])

    # The neighbours of the bad byte.

    def where_it_is(self, finding: Finding, bases: Bases) -> Iterator[str]:
        block = finding.block
        if block is None:
            return
        if block.kind == HEAP:
            yield from self.in_heap(finding, block, bases)
        elif block.kind == GLOBAL:
            where = beside(finding, block)
            defined = block.file + (f":{block.line}" if block.line else "")
            yield (f"{where} global variable '{printable(shown_name(block.name))}' defined in '{printable(defined)}' "
                   f"(0x{block.address:012x}) of size {block.size}")
        else:
            yield from self.in_frame(finding, block, bases)

    def in_heap(self, finding: Finding, block: Block, bases: Bases) -> Iterator[str]:
        end = block.address + block.size
        yield f"{beside(finding, block)} {block.size}-byte region [0x{block.address:012x},0x{end:012x})"
        threads = finding.threads
        if finding.freed:
            yield f"freed by thread {thread_name(threads, threads.freed)} here:"
            yield from self.frames(finding.freed, bases, [FREEING.get(finding.allocator, "free")])
        if any(not frame.note for frame in finding.allocated):
            previously = "previously " if finding.freed else ""
            yield f"{previously}allocated by thread {thread_name(threads, threads.allocated)} here:"
            yield from self.frames(finding.allocated, bases, [allocating(finding.allocator)])
        elif not finding.freed:
            yield ""

    def in_frame(self, finding: Finding, block: Block, bases: Bases) -> Iterator[str]:
        """The frame that has a variable, or a block of alloca, which is of whoever has the stack."""
        thread = thread_name(finding.threads, finding.threads.access)
        address = asan_address(finding)
        if block.kind == DYNAMIC or not block.frame:
            yield f"Address 0x{address:012x} is located in stack of thread {thread}"
            return
        offset, function = address - block.frame, block.function
        yield f"Address 0x{address:012x} is located in stack of thread {thread} at offset {offset} in frame"
        yield from self.frames((function._replace(column=0),) if function else (), bases)
        yield f"  This frame has {len(block.variables)} object(s):"
        for it in block.variables:
            line = f" (line {it.line})" if it.line else ""
            mark = ""
            if it.offset == block.address - block.frame:
                mark = f" <== Memory access at offset {offset} {relation(finding, offset, it)} this variable"
            yield f"    [{it.offset}, {it.end}) '{printable(it.name)}'{line}{mark}"

    # Leaks and crashes.

    def leaks(self, pid: int, leaks: List[Finding], results: Results) -> Iterator[str]:
        """All leaks of a process."""
        yield ""
        yield RULE
        yield f"=={pid}==ERROR: LeakSanitizer: detected memory leaks"
        yield ""
        for finding in leaks:
            yield f"{finding.what} allocated from:"
            yield from self.frames(finding.stack, results.bases_of(finding),
                                   [allocating(finding.allocator)])
        lost = total(finding.lost for finding in leaks)
        yield f"SUMMARY: AddressSanitizer: {lost.bytes} byte(s) leaked in {lost.blocks} allocation(s)."

    def crashes(self, results: Results, processes: Iterable[Process]) -> Iterator[str]:
        """Crashes that count, each place once."""
        seen: Dict[int, Crash] = {}
        for process in processes:
            crash = results.crash_of(process)
            if crash is not None and id(crash) not in seen:
                seen[id(crash)] = crash
                yield from self.crash(crash, process, results.bases_of(crash))

    def crash(self, crash: Crash, process: Process, bases: Bases) -> Iterator[str]:
        pid, address = process.pid, process.address
        is_jump = process.access == "jump" and address is not None
        pc = address if address is not None and is_jump else max(self.pc(crash.stack, bases) - 1, 0)
        thread = thread_name(process.threads, process.threads.access)
        on = "on address" if crash.class_name == "stack-overflow" else "on unknown address"
        if address is not None or crash.class_name not in BY_ACCESS:
            on += f" 0x{pc if address is None else address:012x}"
        yield "AddressSanitizer:DEADLYSIGNAL"
        yield RULE
        yield (f"=={pid}==ERROR: AddressSanitizer: {crash.class_name} {on} "
               f"(pc 0x{pc:012x} {invented_registers(pc)} {thread})")
        if is_jump and pc < ZERO_PAGE:
            yield f"=={pid}==Hint: pc points to the zero page."
        if crash.class_name in BY_ACCESS:
            yield f"=={pid}==The signal is caused by a {SIGNALLED.get(process.access, 'UNKNOWN')} memory access."
            if address is None:
                yield f"=={pid}=={WILD_HINT}"
            elif address < ZERO_PAGE:
                yield f"=={pid}==Hint: address points to the zero page."
        yield from self.frames(crash.stack, bases)
        yield from self.created(process.threads, bases)
        if crash.class_name != "stack-overflow":
            yield "AddressSanitizer can not provide additional info."
        yield f"SUMMARY: AddressSanitizer: {crash.class_name} {self.place_of(crash.top)}"
        yield f"=={pid}==ABORTING"


def library_function(finding: Finding) -> str:
    """Returns what the innermost frame is called: the function of the C library or the hook, if it was one."""
    if finding.class_name in ATTEMPTS and finding.call in ("", "free"):
        return FREEING.get(finding.allocator, "free")
    if finding.call.startswith(HOOK):
        moment = "post" if finding.access == "store" else "pre"
        return f"__sanitizer_syscall_{moment}_impl_{finding.call[len(HOOK):]}"
    return OPERATORS.get(finding.call, finding.call)


def allocating(function: str) -> str:
    return ALLOCATING.get(function, function or "malloc")


def address_of(frame: Frame, bases: Bases) -> int:
    """Returns where a frame was in memory; as its module was linked, if nobody knows where that lay."""
    return bases.get(frame.module, 0) + frame.offset


def module_of(frame: Frame) -> str:
    if not frame.module:
        return "(<unknown module>)"
    build = f" (BuildId: {frame.build})" if frame.build else ""
    return f"({printable(frame.module)}+0x{frame.offset:x}){build}"


def invented_registers(pc: int) -> str:
    """What stands for two registers that nobody has kept."""
    return "bp 0x7ffffffff000 sp 0x7fffffffeff8" if pc else "bp 0x000000000000 sp 0x000000000000"


def thread_name(threads: Threads, number: int) -> str:
    return "T-1" if number == UNKNOWN_THREAD else printable(threads.words(number))


def asan_address(finding: Finding) -> int:
    """Returns what AddressSanitizer calls the address: of a function of a library the first bad byte, and else where
    the access begins."""
    return finding.bad_byte if finding.call else finding.address


def extent(finding: Finding) -> Tuple[int, int]:
    """Returns where an access begins, and how many bytes of it count for where that is."""
    is_access = finding.access in ACCESSES and not finding.call and finding.class_name != NEGATIVE_SIZE
    return (finding.address, finding.size or 1) if is_access else (finding.bad_byte, 1)


def beside(finding: Finding, block: Block) -> str:
    """Returns where an access is, seen from a block or a global: as AddressSanitizer counts."""
    address, size = extent(finding)
    end = block.address + block.size
    if address < block.address:
        return f"0x{address:012x} is located {block.address - address} bytes before"
    if address + size <= end or (address < end and finding.freed):
        return f"0x{address:012x} is located {address - block.address} bytes inside of"
    return f"0x{max(address, end):012x} is located {max(address - end, 0)} bytes after"


def relation(finding: Finding, offset: int, variable: Variable) -> str:
    size = extent(finding)[1]
    if offset >= variable.end:
        return "overflows"
    if offset + size <= variable.offset:
        return "underflows"
    if offset < variable.offset:
        return "partially underflows"
    return "is inside" if offset + size <= variable.end else "partially overflows"


def words_of_call(finding: Finding, address: str, thread: str) -> str:
    """Returns the text about a call with wrong arguments, or of one that frees what it must not."""
    name, size = finding.class_name, finding.size or 0
    if name == MISMATCH:
        return f"{name} ({finding.said}) on {address}"
    if name == SIZE_MISMATCH:
        return f"{name} on {address} in thread {thread}:"
    if name == NEGATIVE_SIZE:
        return f"{name}: (size={signed(size)})"
    if name == TOO_BIG:
        return (f"requested allocation size 0x{size:x} (0x{size + 0x1000 & ~0xfff:x} after adjustments for alignment, "
                f"red zones etc.) exceeds maximum supported size of 0x{MAX_SIZE:x} (thread {thread})")
    if finding.by_recorder and name[len("bad-"):] in SIZES_ASKED:
        return f"attempting to call {name[len('bad-'):]}() for pointer which is not owned: {address}"
    if name.endswith("-overflow") and finding.by_recorder:
        return f"{words_of_overflow(finding)} cannot be represented in type size_t (thread {thread})"
    if name in ALIGNMENTS.values():
        return f"{words_of_alignment(finding)} (thread {thread})"
    if finding.by_recorder:
        return f"{name}: {finding.said.replace(', ', ',', 1) if name.endswith('-overlap') else finding.said}"
    return f"{name} on address {address} in thread {thread}"


def words_of_overflow(finding: Finding) -> str:
    factors = re.match(r"(\d+) \* (\d+)", finding.said)
    if factors:
        return f"{finding.call} parameters overflow: count * size ({factors[1]} * {factors[2]})"
    return f"{finding.call} parameters overflow: size 0x{finding.size or 0:x} rounded up to system page size 0x1000"


def words_of_alignment(finding: Finding) -> str:
    said = re.match(r"alignment (\d+) of (\d+)", finding.said)
    alignment, size = (said[1], int(said[2])) if said else ("0", 0)
    if finding.class_name == ALIGNMENTS["memalign"]:
        return f"invalid allocation alignment: {alignment}, alignment must be a power of two"
    multiple = "a multiple of sizeof(void*) == 8"
    if finding.class_name == ALIGNMENTS["aligned_alloc"]:
        multiple = f"the requested size 0x{size:x} must be a multiple of alignment"
    call = "posix_memalign" if "posix" in finding.class_name else "aligned_alloc"
    return f"invalid alignment requested in {call}: {alignment}, alignment must be a power of two and {multiple}"


def sizes_of(finding: Finding) -> Iterator[str]:
    """The sizes of the object, by its delete and by its allocation."""
    allocated = finding.block.size if finding.block else 0
    other = ALIGNMENTS_SAID.search(finding.said)
    size = finding.size if other is None else other["size"]
    yield "  object passed to delete has wrong type:"
    if size is not None:
        yield f"  size of the allocated type:   {allocated} bytes;"
        yield f"  size of the deallocated type: {size} bytes."
    if other is not None:
        yield f"  alignment of the allocated type:   {aligned(other['made'])};"
        yield f"  alignment of the deallocated type: {aligned(other['said'])}."


def aligned(alignment: Optional[str]) -> str:
    return f"{alignment} bytes" if alignment else "default-aligned"
