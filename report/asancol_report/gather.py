"""From the verdicts and the side memory of processes to findings.

What comes of one process is grouped, and groups that are the same in several processes of a run are put together before
any symbol is looked up. So memory grows with the places in the program, and not with the lines.
"""

from __future__ import annotations

from copy import copy
from typing import Callable, cast, Dict, Hashable, List, NamedTuple, Optional, Tuple

from .by_recorder import definition, FORMS, lost_at
from .class_names import class_of, INDIRECT_LEAK, LEAK
from .crashes import STACK_OVERFLOW
from .findings import (Block, DYNAMIC, Finding, Frame, GLOBAL, HEAP, MAX_NUMBERS, MAX_TESTS, Rows, STACK, Stack, Tally,
                       Thread, Threads, UNKNOWN_THREAD)
from .functions import is_standard
from .leaks import at_one_place, Leaks, Sum, SUMMARY, YES
from .modules import CodeAddress, Modules
from .results import Process, Results
from .running import in_memory
from .side import (
    ENDING_SIGNAL, Fault, FINDING_INDIRECT_LEAK, FINDING_LEAK, Last, Side, Thread as SideThread, VARIABLE_DYNAMIC,
    VARIABLE_FORGOTTEN, VARIABLE_NONE, VARIABLE_STACK,
)
from .sources import Sources
from .stacks import OF_RECORDER
from .symbols import Symbols
from .variables import declaration_of, variables_of
from .verdicts import Group, Line, Verdicts

NO_PLACE = "its place was not recorded"
NO_ALLOCATION = "before the trace began"
# The function of Rust's library that runs `main`, a thread or a test; Rust's own stacks end there too.
RUST_BEGINS = "__rust_begin_short_backtrace"
LEAKS_MISSED = "leaks of a process were not looked for, such as when a thread does not stop"
# Where the addresses of a trace end.
ADDRESS_END = 1 << 47
NO_MODULES = "the modules of a process are not known, as where /proc is not there: its places are addresses"

LEAK_KINDS = (FINDING_LEAK, FINDING_INDIRECT_LEAK)

# The most threads of a finding that are shown. The recorder names no more.
MAX_THREADS = 100

# The places of calls, the innermost first; none, if nothing is known.
Calls = Tuple[CodeAddress, ...]
Key = Tuple[str, str, Optional[int], str, Calls, Calls, Calls, str]


class Sighting:
    """Groups of one run that are the same."""

    __slots__ = ("finding", "place", "allocated", "freed", "function", "created", "count", "processes", "first", "lost",
                 "tests")

    def __init__(self, finding: Finding, places: Places, first: Tally) -> None:
        self.finding = finding
        self.place, self.allocated, self.freed, self.function = places
        self.created: List[Calls] = []  # of each thread of the finding
        self.count = 0
        self.processes = 0  # a bit for each, since there may be many
        self.first = first
        self.lost = Leaks()
        self.tests: Dict[str, None] = {}

    def tally(self) -> Tally:
        """Returns the tally of its first time, with the tests of all."""
        return self.first._replace(tests=tuple(self.tests)[:MAX_TESTS])


class Places(NamedTuple):
    """The places of a fault: of the access, the malloc and the free, with their callers; and the function of the frame
    that it lies in."""

    place: Calls = ()
    allocated: Calls = ()
    freed: Calls = ()
    function: Calls = ()


class Crashed(NamedTuple):
    """Where a signal has met a process, in which thread, and which calls have created its threads."""

    last: Last
    calls: Calls
    threads: Threads
    created: List[Calls]


class Came:
    """The latest input: findings as their process has them, and processes that a signal has ended."""

    __slots__ = ("findings", "processes", "asks")

    def __init__(self) -> None:
        self.findings: List[Finding] = []
        self.processes: List[Process] = []
        self.asks: Optional[int] = None  # a socket on which a process that has halted waits for its report


class Gatherer:
    """Takes in the processes of one run."""

    def __init__(self, results: Results, run: int, modules: Modules, symbols: Symbols, sources: Sources,
                 leaks: str = YES, counts: Optional[Callable[[Finding], bool]] = None) -> None:
        self.results = results
        self.take_rules: Callable[[List[str]], None] = lambda lines: None  # the suppressions of a program
        self.rule_of: Callable[[Finding], str] = lambda finding: ""  # the suppression that it matches
        self.leaks = leaks  # what happens to them
        self.counts = counts  # which leaks count that are summed up; None: all
        self.sum = Sum()
        self.run = run
        self.modules = modules
        self.symbols = symbols
        self.sources = sources
        self.sightings: Dict[Key, Sighting] = {}
        self.frames: Dict[CodeAddress, Stack] = {}
        # Where each process was that a signal has ended, by its number.
        self.last: Dict[int, Crashed] = {}
        self.came = Came()
        self.is_each_kept = False  # the findings of the latest process are wanted as it has them
        # The processes of each finding that was seen, by its identity.
        self.seen_in: Dict[int, int] = {}

    def take(self, process: int, pid: int, verdicts: int, side: Optional[Side], segment: int = 1) -> None:
        """Takes in the lines of a process, or of a segment of it, behind the descriptor `verdicts`."""
        self.take_rules(side.suppressions() if side else [])
        lines = Verdicts(verdicts, side.look_up if side else lambda event: (0, False))
        for group in lines.groups.values():
            self.take_group(side, group, Tally(0, 0, process, pid, group.first.event, segment))
        found = self.take_findings(process, pid, side, segment) if side else 0
        if side is not None and (self.results.has_addresses or self.is_each_kept):
            self.results.bases[self.run, process] = side.bases
        if side is not None and side.is_good and not side.maps and (lines.groups or found):
            self.results.notes[NO_MODULES] = None
        if side is not None and side.ending == ENDING_SIGNAL:
            last = side.last()
            threads, created = threads_of(side, last.thread)
            self.last[process] = Crashed(last, self.calls(side, last.calls), threads,
                                         [self.calls(side, it) for it in created])
        if side is not None and side.leaks_missed and self.leaks == SUMMARY:
            self.results.notes[LEAKS_MISSED] = None
        if lines.strange:
            self.results.notes[f"process {pid}: {lines.strange} lines of asancol were not understood"] = None

    def alone(self, side: Side, first: Tally, line: bytes, number: int) -> List[Finding]:
        """Returns the finding of a line of asancol, or by the recorder, that has this number; none, if it can't be
        read. It is not taken in."""
        self.take_rules(side.suppressions())
        kept, self.sightings = self.sightings, {}
        try:
            with in_memory(line) as text:
                groups = list(Verdicts(text.fileno(), side.look_up).groups.values()) if line else []
            for group in groups:
                self.take_group(side, group, first._replace(event=group.first.event))
            fault = side.fault(number) if not line else None
            if fault is not None and fault.kind:
                self.take_finding(side, fault, first._replace(after=fault.after, number=1))
            self.symbols.stay()
            self.symbols.look_up()
            found = [self.complete(sighting) for sighting in self.sightings.values()]
            for finding, sighting in zip(found, self.sightings.values()):
                finding.runs = {self.run: sighting.tally()}
        finally:
            self.sightings = kept
        if self.results.has_addresses:
            self.results.bases[self.run, first.process] = {it.path: it.base for it in side.maps}
        return found

    def take_group(self, side: Optional[Side], group: Group, first: Tally) -> None:
        """Takes in the lines of one fault."""
        fault = side.fault(group.fault) if side and group.fault else None
        finding = finding_of(group.first, fault)
        sighting = self.sight(finding, group.count, fault, self.places_of(side, fault), first)
        if side and fault and sighting.first is first:
            sighting.finding.threads, created = threads_of(side, *fault.threads)
            sighting.created = [self.calls(side, it) for it in created]
        if self.modules.is_full():
            self.symbols.look_up()

    def take_findings(self, process: int, pid: int, side: Side, segment: int) -> int:
        """Takes in what the recorder of a process has found by itself. Returns how many places there are."""
        count = 0
        for count, fault in enumerate(side.findings(), 1):
            if fault.kind in LEAK_KINDS and self.leaks != YES:
                self.sum_up(process, side, fault)
            else:
                self.take_finding(side, fault, Tally(0, 0, process, pid, 0, segment, fault.after, count))
        return count

    def take_finding(self, side: Side, fault: Fault, first: Tally) -> None:
        finding, times = finding_by_recorder(fault), times_of(fault)
        sighting = self.sight(finding, times, fault, self.places_of(side, fault), first)
        if fault.kind in LEAK_KINDS:
            sighting.lost = at_one_place([sighting.lost, lost_at(fault)])
        if sighting.first is first:
            sighting.finding.threads, created = threads_of(side, *fault.threads)
            sighting.created = [self.calls(side, it) for it in created]
        if self.modules.is_full():
            self.symbols.look_up()

    def sum_up(self, process: int, side: Side, fault: Fault) -> None:
        """Adds a leak to the sum. Its symbols are looked up only if somebody may say that it does not count."""
        if self.leaks != SUMMARY:
            return
        calls = self.calls(side, fault.place, self.counts is not None)
        self.sum.take(FORMS[fault.kind].class_of(fault), calls, process, fault.count, fault.size)

    def finish_leaks(self) -> None:
        """Gives the run the sum of its leaks, once all was taken in."""
        def is_counted(class_name: str, calls: Hashable) -> bool:
            if self.counts is None:
                return True
            finding = Finding(class_name, "malloc", None, 0, None)
            finding.by_recorder, finding.raw_class = True, LEAK
            finding.stack = self.stack(cast("Calls", calls), NO_PLACE)
            finding.set_fingerprint(self.sources)
            return self.counts(finding)

        if self.sum.lost:
            self.symbols.look_up()
            self.results.runs[self.run].leaks = self.sum.total(is_counted)

    def places_of(self, side: Optional[Side], fault: Optional[Fault]) -> Places:
        if side is None or fault is None:
            return Places()
        function = (self.place(side, fault.function + 1),) if fault.function else ()
        place, allocated, freed = (self.calls(side, it) for it in (fault.place, fault.allocated, fault.freed))
        return Places(place, allocated, freed, function)

    def calls(self, side: Side, after_calls: Tuple[int, ...], has_names: bool = True) -> Calls:
        """Returns the places of calls, from the addresses after them. An address that no call precedes is an
        instruction that a signal has interrupted, if the next one follows a call, and else the end: code without frame
        pointers may have led there."""
        places = [self.place(side, address, has_names) for address in after_calls]
        follow_calls = [it.module is not None and it.module.is_after_call(it.in_file) for it in places]
        pairs = zip(follow_calls[1:], [*follow_calls[2:], False])
        ends = (number for number, pair in enumerate(pairs, 1) if not any(pair))
        return tuple(places[:next(ends, len(places))])

    def place(self, side: Side, after_call: int, has_names: bool = True) -> CodeAddress:
        """Returns the place of a call, from the address after it. If somebody wants its names, they are looked up."""
        address = after_call - 1
        mapping = side.mapping(address)
        if mapping is None:
            return CodeAddress(None, address, address)
        module = self.modules.find(mapping, side.started)
        in_file = address - mapping.low + mapping.offset
        if module.elf is None or module.trouble:
            return CodeAddress(module, in_file, address - side.bases[mapping.path])
        linked = module.elf.address(in_file)
        if has_names and linked not in module.names:
            module.wanted[linked] = None
        side.bases[mapping.path] = address - linked
        return CodeAddress(module, in_file, linked)

    def sight(self, finding: Finding, count: int, fault: Optional[Fault], places: Places, tally: Tally) -> Sighting:
        size = None if finding.access == "malloc" or finding.by_recorder else finding.size
        key = (finding.class_name, finding.access, size, finding.call, *places[:3], fault.name if fault else "")
        sighting = self.sightings.get(key)
        if sighting is None:
            sighting = self.sightings[key] = Sighting(finding, places, tally)
        elif time_of(tally) < time_of(sighting.first):
            # A later process may end before an earlier one, and a later segment be checked before.
            sighting.finding, sighting.first = finding, tally
        if fault is not None and fault.test:
            sighting.tests[fault.test] = None
        sighting.count += count
        sighting.processes |= 1 << tally.process
        return sighting

    def finish(self) -> List[Finding]:
        """Looks up the symbols of all that was taken in, adds it to the results, and returns the new ones."""
        self.symbols.look_up()
        new = []
        for sighting in sorted(self.sightings.values(), key=lambda it: time_of(it.first)):
            finding = self.complete(sighting)
            known = self.results.places.get(finding.place)
            if known is None:
                new.append(finding)
            finding = known or finding
            before = self.seen_in.get(id(finding), 0)
            self.seen_in[id(finding)] = before | sighting.processes
            added = bits_of(sighting.processes & ~before)
            times = sighting.count or int(known is None)  # pieces alone are none, if they are pieces of a known access
            first = sighting.tally()._replace(times=times, processes=added, lost=sighting.lost,
                                            numbers=numbers_of(sighting.processes))
            self.results.add(finding, self.run, first)
            if self.results.has_log or self.is_each_kept:
                self.came.findings.append(finding_alone(sighting, self.run))
        self.sightings.clear()
        self.note_last()
        return new

    def note_awaited(self) -> None:
        """Notes which findings no process has but those that have halted there, which their parents have waited for."""
        awaited = 0
        for number, process in self.results.runs[self.run].processes.items():
            awaited |= (process.has_halted and process.is_awaited) << number
        for finding in self.results.places.values() if awaited else ():
            seen = self.seen_in.get(id(finding), 0)
            if seen and not seen & ~awaited:
                finding.runs[self.run] = finding.runs[self.run]._replace(is_awaited=True)

    def note_last(self) -> None:
        """Gives the processes that a signal has ended their stacks."""
        processes = self.results.runs[self.run].processes
        for number, (last, calls, threads, created) in self.last.items():
            if calls and number in processes:
                crash = STACK_OVERFLOW if last.is_stack_used_up else ""
                processes[number] = processes[number]._replace(
                    stack=self.stack(calls, ""), address=last.address, access=last.access, crash=crash,
                    threads=self.with_stacks(threads, created), test=last.test)
                if self.results.has_log:
                    self.came.processes.append(processes[number])
        self.last.clear()

    def complete(self, sighting: Sighting) -> Finding:
        """Gives a finding its stacks and its fingerprint."""
        finding = sighting.finding
        finding.stack = finding.stack or self.stack(sighting.place, NO_PLACE)
        if finding.block is not None and finding.block.kind == HEAP and not finding.is_forgotten:
            finding.allocated = self.stack(sighting.allocated, NO_ALLOCATION)
            if sighting.freed:
                finding.freed = self.stack(sighting.freed, "")
        if finding.block is not None and sighting.function:
            finding.block = finding.block._replace(function=self.stack(sighting.function, "")[-1])
        finding.threads = self.with_stacks(finding.threads, sighting.created)
        finding.set_fingerprint(self.sources)
        finding.rule = self.rule_of(finding)
        return finding

    def with_stacks(self, threads: Threads, created: List[Calls]) -> Threads:
        """Gives threads the stacks of the calls that have created them. The first one has none, and is the last."""
        stacks = [self.stack(calls, NO_PLACE) for calls in created]
        named = [it._replace(created=stack) for it, stack in zip(threads.all, stacks)]
        return threads._replace(all=(*named, *threads.all[len(named):]))

    def stack(self, calls: Calls, note: str) -> Stack:
        """Returns the frames of calls. What has called `main`, or what Rust calls so, is of no use to a reader."""
        if not calls:
            return (Frame(note=note),)
        frames: List[Frame] = []
        end = 0
        for place in calls:
            if place not in self.frames:
                self.frames[place] = self.read_frames(place)
            for frame in self.frames[place]:
                if frames and RUST_BEGINS in frame.function:
                    return tuple(frames)
                frames.append(frame)
            if frames[-1].function == "main":
                end = len(frames)
        return tuple(frames[:end] if end else frames)

    def read_frames(self, place: CodeAddress) -> Stack:
        """Returns the frame of a place, and before it those that the compiler has inlined there."""
        module = place.module
        if module is None:
            return (Frame(offset=place.offset),)
        address = module.elf.address(place.in_file) if module.elf else 0
        names = module.names.get(address) if module.elf else None
        base = Frame(module=module.path, offset=place.offset, build=module.build)
        if module.elf and module.elf.is_of_recorder(address) and not (names and names[0].line):
            return (base._replace(function=names[0].function if names else "", file=OF_RECORDER),)
        is_linked = module.elf is not None and module.elf.is_linked
        if not names:
            return (base._replace(is_bare=is_linked),)
        return tuple(
            base._replace(function=it.function, file=it.file, line=it.line, column=it.column,
                          is_inlined=number < len(names) - 1, text=self.sources.line(it.file, it.line),
                          caret=self.sources.caret(it.file, it.line, it.column, module.built),
                          is_bare=is_linked and not it.line and not is_standard(it.function))
            for number, it in enumerate(names)
        )


def finding_alone(sighting: Sighting, run: int) -> Finding:
    """Returns a finding as one process has it."""
    finding = copy(sighting.finding)
    finding.runs = {run: sighting.tally()._replace(times=1, processes=1, lost=sighting.lost)}
    return finding


def whole(address: int, fault: Optional[Fault]) -> int:
    """Returns an address of a trace, which has 47 bits, as the process has it: a fault has all bits."""
    return address if fault is None else address | fault.start & ADDRESS_END


def finding_of(report: Line, fault: Optional[Fault]) -> Finding:
    address, bad = whole(report.address, fault), report.bad if report.bad is None else whole(report.bad, fault)
    finding = Finding(report.class_name, report.access, report.size, address, bad)
    finding.shadow = report.shadow
    finding.block = block_of(fault)
    if fault is not None:
        finding.class_name = class_of(report.class_name, report.access, finding.bad_byte, fault)
        finding.call = fault.call
        finding.is_forgotten = fault.variable == VARIABLE_FORGOTTEN
        finding.rows = Rows(fault.shadow_start, fault.shadow)
        finding.allocator = fault.name if fault.variable == VARIABLE_NONE else ""
        if fault.size and report.access in ("load", "store"):
            finding.size = fault.size
            if fault.start <= address < fault.start + fault.size:
                finding.address, finding.bad = fault.start, finding.bad_byte
    return finding


def finding_by_recorder(fault: Fault) -> Finding:
    """Returns a finding of the recorder. Of a leak the first block is of no use: there may be many."""
    form = FORMS[fault.kind]
    address = form.address(fault)
    finding = Finding(form.class_of(fault), form.access, fault.size if form.has_size else None, address, None)
    finding.by_recorder = True
    finding.raw_class = LEAK if finding.class_name == INDIRECT_LEAK else finding.class_name
    finding.said = form.words(fault)
    finding.call, finding.allocator = fault.call, fault.name
    finding.block = Block(fault.block, fault.block_size) if address and fault.block else None
    defined = definition(fault)
    if defined is not None:
        name, file, line = defined
        finding.stack = (Frame(function=name, file=file, line=line),)
    return finding


def times_of(fault: Fault) -> int:
    """Returns how often a finding of the recorder came up in its segment."""
    return 1 if fault.kind in LEAK_KINDS else fault.count


def threads_of(side: Side, access: int, allocated: int = 0, freed: int = 0) -> Tuple[Threads, List[Tuple[int, ...]]]:
    """Returns the threads that a fault names, and the calls that have created them."""
    found: Dict[int, SideThread] = {}
    for number in (access, freed, allocated):
        thread = side.thread(number)
        while thread is not None and number not in found and len(found) < MAX_THREADS:
            found[number] = thread
            number = thread.creator
            thread = side.thread(number)

    def order(number: int) -> int:
        return found[number].number if number in found else UNKNOWN_THREAD if number else 0

    named = [Thread(it.number, order(it.creator), it.name, it.known_number) for it in found.values()]
    first = side.beside_threads()[2]
    if first:
        named.append(Thread(0, name=first))
    return Threads(order(access), order(allocated), order(freed), tuple(named)), [it.created for it in found.values()]


def time_of(first: Tally) -> Tuple[int, ...]:
    """Returns when something came up, among all that a run has."""
    return (first.process, *first.moment)


def bits_of(number: int) -> int:
    return bin(number).count("1")


def numbers_of(processes: int) -> Tuple[int, ...]:
    """Returns the first of the processes that have a bit."""
    numbers: List[int] = []
    while processes and len(numbers) < MAX_NUMBERS:
        lowest = processes & -processes
        numbers.append(lowest.bit_length() - 1)
        processes ^= lowest
    return tuple(numbers)


def block_of(fault: Optional[Fault]) -> Optional[Block]:
    """Returns what a fault lies beside."""
    if fault is None or fault.block == 0:
        return None
    if fault.variable in (VARIABLE_NONE, VARIABLE_FORGOTTEN):
        return Block(fault.block, fault.block_size)
    if fault.variable == VARIABLE_DYNAMIC:
        return Block(fault.block, fault.block_size, DYNAMIC)
    kind = STACK if fault.variable == VARIABLE_STACK else GLOBAL
    name, file, line = declaration_of(fault.name)
    return Block(fault.block, fault.block_size, kind, name, file, line or fault.line, fault.frame,
                 variables=variables_of(fault.variables) if kind == STACK else ())
