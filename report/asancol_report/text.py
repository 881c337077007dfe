"""The report as text. Its lines are like AddressSanitizer's, because tools know those."""

from __future__ import annotations

import re
import textwrap
from typing import Callable, Dict, Iterable, Iterator, List, Optional, Sequence, Set, TextIO, Tuple

from . import shadow_rows
from .class_names import TITLES
from .classes import advice_for
from .crashes import own_calls
from .findings import Block, Finding, FORGOTTEN, Frame, Place, place_text, Stack, Threads
from .functions import brief
from .leaks import text_of_runs, total
from .results import Process, Results, Run
from .stacks import folded, owner_of, rows_of, window
from .suppressions import suppression_of
from .variables import Variable
from .words import date_and_time, plural, printable, shown_path

# The most names of unchecked code in the summary.
MAX_UNCHECKED_SAID = 5
# The most places that are named under the first one of a block.
MAX_ALSO = 5
# The most places with a report in the text, and the most variables of a frame.
MAX_PLACES = 50
HINT_COLUMNS = 100
MAX_VARIABLES = 16


class Colors:
    """What turns colors on and off; nothing, if there are none."""

    def __init__(self, are_on: bool) -> None:
        self.red, self.green, self.bold, self.dim, self.off = (
            ("\033[1;31m", "\033[1;32m", "\033[1m", "\033[2m", "\033[0m") if are_on else [""] * 5)


class Text:
    """Writes a report, all at once or finding by finding."""

    for_leaks = "--leaks=yes"
    most_alone = MAX_PLACES  # that are printed as they come up

    def __init__(self, out: TextIO, colors: Colors, root: str, has_suppressions: bool, has_all_frames: bool = False,
                 has_shadow: bool = False, elsewhere: str = "") -> None:
        self.out = out
        self.colors = colors
        self.root = root
        self.has_suppressions = has_suppressions  # print what suppresses each finding
        self.has_all_frames = has_all_frames
        self.has_shadow = has_shadow
        self.rule_root = root  # suppressions have their paths from here
        self.hidden: Dict[str, re.Pattern[str]] = {}  # frames that are one line, by their patterns
        self.hints: Set[str] = set()  # classes whose hint was printed
        self.has_all_places = False  # what may follow from an earlier report is printed, too
        self.elsewhere = elsewhere  # the files that have all places
        self.places = 0  # that were printed
        self.shown: Dict[Place, int] = {}  # those that processes have halted at, and how often they were printed
        self.short: Dict[str, str] = {}  # notes that were printed before, and how they are printed again

    def write(self, lines: Iterator[str]) -> None:
        self.out.write("".join(line + "\n" for line in lines))

    def report(self, results: Results, is_live: bool) -> None:
        """Writes all findings that count, and the summary. Those of a live report, or of a process that has halted,
        were written before: their counts follow."""
        counted = results.counted()
        rest = [finding for finding in counted if finding.place not in self.shown]
        before = counted if is_live else [finding for finding in counted if finding.place in self.shown]
        if not is_live:
            self.all_places(rest, results)
        for finding in before[:MAX_PLACES]:
            self.write(self.rest_of(finding))
        self.write(self.left_out(self.places if not is_live else sum(map(self.is_entry, rest))))
        self.write(self.summary(results))

    def rest_of(self, finding: Finding) -> Iterator[str]:
        """The rest about a finding that was printed as it came up. Another one may have it among its lines."""
        if finding.follows is not None and finding.shares_block:
            return
        others = list(self.also(finding))
        if others or finding.count > self.shown.get(finding.place, 1):
            yield self.count_line(finding)
            yield from others

    def all_places(self, findings: Iterable[Finding], results: Results) -> None:
        for finding in findings:
            if self.is_entry(finding):
                self.place(finding, notes=notes_on(results, finding))

    def alone(self, finding: Finding, _: Results) -> Iterator[str]:
        """A finding that has just come up. If it may follow from an earlier one, it is a line."""
        head = finding.follows
        if head is None or self.is_entry(finding):
            return self.finding(finding, times=False)
        if finding.shares_block:
            return iter([f"asancol: also at {self.again(finding)}"])
        return iter([f"asancol: {printable(finding.title)} at {self.place_of(finding.top)}; it may follow from the "
                     f"report at {self.place_of(head.top)}"])

    def is_entry(self, finding: Finding) -> bool:
        """Whether a finding is more than a line under another one, or part of a count."""
        return finding.follows is None or (self.has_all_places and not finding.shares_block)

    def new_places(self, findings: Iterable[Finding], _: Results) -> None:
        """Writes findings at once, without counts."""
        new = set(findings)
        for finding in sorted(new, key=lambda it: it.order):
            if finding.counts and finding.follows not in new:
                self.place(finding, times=False)

    def place(self, finding: Finding, times: bool = True, notes: Sequence[str] = ()) -> None:
        """Writes a finding, if there were not too many before."""
        self.places += 1
        if self.places <= MAX_PLACES:
            self.write(self.finding(finding, times, notes))

    def left_out(self, places: int) -> Iterator[str]:
        if self.has_shadow and self.places:
            yield shadow_rows.LEGEND + "\n"
        if places > MAX_PLACES:
            where = f"in {self.elsewhere}" if self.elsewhere else "not shown: --json FILE and --html FILE have them all"
            are = "is" if places == MAX_PLACES + 1 else "are"
            yield f"asancol: {plural(places - MAX_PLACES, 'more place')} {are} {where}"

    def finding(self, finding: Finding, times: bool = True, notes: Sequence[str] = ()) -> Iterator[str]:
        colors = self.colors
        words = []
        if times and finding.count > 1:
            words += [f"{finding.count} times", plural(finding.processes, "process")]
        count = f" ({', '.join(words)})" if words else ""
        threads = finding.threads
        thread = printable(threads.where(threads.access))
        title = TITLES[finding.class_name] if finding.is_leak else finding.title
        yield f"{colors.red}=={finding.first.pid}==ERROR: asancol: {printable(title)}{colors.off}{thread}{count}"
        if finding.is_leak:
            yield f"{finding.what} allocated from:"
        if finding.in_tests:
            yield f"  {printable(finding.in_tests)}"
        yield from self.stack(finding.stack, finding.top)
        bad = f"0x{finding.bad_byte:x}"
        if finding.where:
            yield f"  {bad} is {printable(finding.where)}{self.frame_file(finding)}"
        elif finding.has_address:
            yield f"  address {bad}"
        if finding.is_forgotten:
            yield f"  {FORGOTTEN}"
        yield from variables_text(finding.block, finding.bad_byte)
        for title, number, stack in (("allocated", threads.allocated, finding.allocated),
                                     ("freed", threads.freed, finding.freed)):
            if stack:
                yield f"  {title}{printable(threads.where(number, stack))} at"
                yield from self.stack(stack)
        yield from self.threads(threads)
        if self.has_shadow and finding.rows.shadow:
            yield from shadow_rows.lines(finding.rows, finding.bad_byte)
        yield from self.also(finding)
        for note in notes:
            yield f"  {printable(note)}"
        yield from self.hint(finding.class_name)
        if self.has_suppressions:
            line = suppression_of(finding, self.rule_root)
            yield f"  suppression: {printable(line)}" if line else "  suppression: none, since its place is not known"
        yield ""

    def hint(self, class_name: str) -> Iterator[str]:
        """What a developer should look at, at the first report of each class."""
        if class_name not in self.hints:
            self.hints.add(class_name)
            yield from textwrap.wrap(f"hint: {advice_for(class_name)}", HINT_COLUMNS, initial_indent="  ",
                                     subsequent_indent="    ")

    def threads(self, threads: Threads) -> Iterator[str]:
        for title, stack in threads.titles():
            yield f"  {printable(title)}"
            yield from self.stack(stack)

    def also(self, finding: Finding) -> Iterator[str]:
        """Where else there were reports on the same block or variable, each line of source once, and how many others
        may follow from this one."""
        named = {line_of(finding)}
        count = 0 if self.has_all_places else sum(other.place not in self.shown for other in finding.later)
        for other in finding.also:
            if line_of(other) in named or other.count <= self.shown.get(other.place, 0):
                continue
            if len(named) > MAX_ALSO and not self.has_all_places:
                count += 1
                continue
            named.add(line_of(other))
            times = f" ({other.count} times)" if other.count > 1 else ""
            yield f"  also at {self.again(other)}{times}"
        if count:
            shows = "it" if count == 1 else "them"
            yield (f"  {plural(count, 'later report')} of this process may follow from this; --all-places shows "
                   f"{shows}")

    def again(self, finding: Finding) -> str:
        """Returns the words for one more report on a block or variable."""
        where = f", {printable(finding.where_again)}" if finding.block else ""
        return f"{self.place_of(finding.top)}: {printable(finding.what)}{where}"

    def frame_file(self, finding: Finding) -> str:
        """Returns where the function is whose frame has the variable."""
        function = finding.block.function if finding.block else None
        if function is None or not function.function or not function.file:
            return ""
        return f", {printable(shown_path(place_text(function._replace(column=0)), self.root))}"

    def place_of(self, top: Frame) -> str:
        function = f" in {brief(top.function)}" if top.function else ""
        return printable(shown_path(place_text(top), self.root) + function)

    def stack(self, stack: Stack, top: Optional[Frame] = None) -> Iterator[str]:
        """A stack, with the line of source of the frame that stands for the place, or of the next one that has any."""
        own = next((at for at, frame in enumerate(stack) if frame is top), -1)
        sourced = next((at for at in range(own, len(stack)) if own >= 0 and stack[at].text), own)
        for first, count, owners in rows_of(stack, own, self.owner_of, tuple(self.hidden)):
            if owners and not self.has_all_frames:
                yield f"    .. {folded(count, owners)}"
                continue
            for at in range(first, first + count):
                yield f"    #{at} {self.frame(stack[at])}"
                if at == sourced:
                    yield from self.source(stack[at])

    def owner_of(self, frame: Frame) -> str:
        """Returns whose code a frame is, if it is one of several in a line: a pattern, or a library."""
        words = [it for it in (frame.function, frame.file, frame.module) if it]
        return next((text for text, pattern in self.hidden.items() if any(map(pattern.search, words))), "") or (
            owner_of(frame))

    def source(self, frame: Frame) -> Iterator[str]:
        """The line of a frame, with a caret under its column. Without it, if the file may have changed since."""
        if frame.text and frame.caret is not None:
            line, before = window(frame.text, frame.caret)
            yield f"{frame.line:9} | {printable(line)}"
            if frame.caret:
                yield f"{'':9} | {' ' * len(printable(before))}{self.colors.green}^{self.colors.off}"

    def frame(self, frame: Frame) -> str:
        if frame.note:
            return frame.note
        colors = self.colors
        name = frame.function if self.has_all_frames else brief(frame.function)
        function = f"in {colors.bold}{printable(name)}{colors.off} " if name else ""
        where = "" if not frame.file and not frame.module else printable(shown_path(place_text(frame), self.root))
        return f"0x{frame.offset:x} {function}{where}".rstrip() + (" (inlined)" if frame.is_inlined else "")

    def count_line(self, finding: Finding) -> str:
        place = shown_path(place_text(finding.top), self.root)
        function = f" in {brief(finding.top.function)}" if finding.top.function else ""
        times = f": {finding.count} times, {plural(finding.processes, 'process')}" if finding.count > 1 else ""
        return f"asancol: {finding.class_name}{printable(function)} {printable(place)}{times}"

    def summary(self, results: Results, has_places: bool = True) -> Iterator[str]:
        if has_places:
            yield from self.crashes(results, results.crashes())
        yield from abrupt_lines(results.abrupt())
        yield from incomplete_lines([process for _, process in results.incomplete()])
        for run in results.runs:
            for trouble in run.troubles:
                yield f"asancol: {self.run_name(run, results)}{printable(trouble)}"
        yield f"{self.colors.bold}{totals_line(results)}{self.colors.off}"
        totals = results.totals()
        if totals.leaks.places:
            yield f"asancol: {text_of_runs(run.leaks for run in results.runs)}; {self.for_leaks} shows them"
        if totals.crashes_awaited:
            yield f"asancol: {awaited_text(totals.crashes_awaited)}"
        for rule in results.unused:
            yield f"asancol: a suppression matched nothing: {printable(rule)}"
        if results.gone:
            yield f"asancol: {plural(results.gone, 'place')} of the baseline not seen in this run"
        for note in results.notes:
            yield f"asancol: {printable(self.short.get(note, note))}"
        if has_places:
            yield from self.last_line([*results.counted(), *results.counted_crashes()])

    def last_line(self, counted: List[Finding]) -> Iterator[str]:
        """The first of what counts, or the total of leaks, if only these do, as AddressSanitizer has it."""
        lost = total(finding.lost for finding in counted if finding.is_leak)
        if counted and all(finding.is_leak and finding.lost.blocks for finding in counted):
            yield f"SUMMARY: asancol: {lost.bytes} byte(s) leaked in {lost.blocks} allocation(s)"
        elif counted:
            yield f"SUMMARY: asancol: {counted[0].class_name} {self.place_of(counted[0].top)}"

    def crashes(self, results: Results, processes: Iterable[Process]) -> Iterator[str]:
        """Where processes were when signals ended them. It is no report. What may follow from one has no stack."""
        stacks: Dict[Stack, List[Process]] = {}
        for process in processes:
            stacks.setdefault(process.stack, []).append(process)
        for stack, those in stacks.items():
            crash = results.crash_of(those[0])
            if crash is not None and crash.follows is not None and not self.has_all_places:
                place = f" at {self.place_of(crash.top)}" if stack else ""
                yield from lines_of(those, lambda it: f"{it.end}{place}, after its reports")
                continue
            yield from lines_of(those, lambda it: it.end + printable(it.threads.where(it.threads.access)))
            if crash is not None and crash.in_tests:
                yield f"  {printable(crash.in_tests)}"
            yield from self.stack(stack, next(iter(own_calls(stack)), None))
            yield from self.threads(those[0].threads)
            named = {id(it): it for it in map(results.crash_of, those) if it} if self.has_suppressions else {}
            yield from (f"  suppression: {printable(suppression_of(it, self.rule_root))}" for it in named.values())

    @staticmethod
    def run_name(run: Run, results: Results) -> str:
        return f"{printable(run.command[0])}: " if len(results.runs) > 1 and run.command else ""


def variables_text(block: Optional[Block], bad: int) -> Iterator[str]:
    """The contents of a variable's frame, and the position of the bad byte in it: as AddressSanitizer has it."""
    if block is None or not block.variables or not block.frame:
        return
    offset, meant = bad - block.frame, block.address - block.frame
    first = next((at for at, it in enumerate(block.variables) if it.offset == meant), 0)
    first = max(0, min(first - MAX_VARIABLES // 2, len(block.variables) - MAX_VARIABLES))
    yield f"  This frame has {plural(len(block.variables), 'object')}:"
    for it in block.variables[first:first + MAX_VARIABLES]:
        line = f" (line {it.line})" if it.line else ""
        mark = f" <== the access at offset {offset} {relation(offset, it)} this variable" if it.offset == meant else ""
        yield f"    [{it.offset}, {it.end}) '{printable(it.name)}'{line}{mark}"
    if len(block.variables) > MAX_VARIABLES:
        yield f"    and {len(block.variables) - MAX_VARIABLES} more"


def line_of(finding: Finding) -> Tuple[str, int]:
    """Returns the line of source of a place; without one, where it is in its module."""
    top = finding.top
    return (top.file, top.line) if top.line else (top.module, top.offset)


def relation(offset: int, variable: Variable) -> str:
    if offset < variable.offset:
        return "underflows"
    return "is inside" if offset < variable.end else "overflows"


def abrupt_lines(processes: Iterable[Process]) -> Iterator[str]:
    return lines_of(processes, lambda it: f"{printable(it.why)}: seen up to there")


def incomplete_lines(processes: Iterable[Process]) -> Iterator[str]:
    return lines_of(processes, lambda it: f"INCOMPLETE: {printable(it.why)}")


def lines_of(processes: Iterable[Process], text_of: Callable[[Process], str]) -> Iterator[str]:
    """Yields a line for each program and text, with the numbers of the first processes that have it."""
    kinds: Dict[str, List[int]] = {}
    for process in processes:
        command = printable(process.command[0]) + ": " if process.command else ""
        kinds.setdefault(command + text_of(process), []).append(process.pid)
    for text, numbers in kinds.items():
        first = ", ".join(map(str, numbers[:3])) + (", .." if len(numbers) > 3 else "")
        who = f"process {first}" if len(numbers) == 1 else f"{len(numbers)} processes ({first})"
        yield f"asancol: {who} {text}"


def notes_on(results: Results, finding: Finding) -> List[str]:
    """Returns which command line a finding's process has, if there are several, and where it was seen."""
    process = results.first_process(finding)
    notes = [f"process: {process.name}"] if process and process.command and results.has_several_commands() else []
    return [*notes, *filter(None, [seen_text(results, finding)])]


def seen_text(results: Results, finding: Finding) -> str:
    """Returns in how many runs, on which machines and when a finding was seen; nothing, if there is one run alone, or
    if each run is a trace."""
    if len(results.runs) < 2 or results.are_traces:
        return ""
    seen = results.sightings(finding)
    text = f"seen in {plural(seen.runs, 'run')}"
    if seen.runs < seen.of_command:
        text = f"seen in {seen.runs} of {seen.of_command} runs"
    if seen.machines:
        text += f" on {plural(len(seen.machines), 'machine')}"
    if seen.first:
        text += f", first {date_and_time(seen.first)}" + (f" on {seen.first_machine}" if seen.first_machine else "")
    return text


def awaited_text(count: int) -> str:
    """Returns the line about crashes that do not count, since parents have waited for them. asancol-run says the same
    of one run (`say_awaited`)."""
    if count == 1:
        return "1 process whose parent waited for it crashed or halted; --crashes shows it"
    return f"{count} processes whose parents waited for them crashed or halted; --crashes shows them"


def totals_line(results: Results) -> str:
    """Returns the summary. asancol-run says the same of one run (`put_completeness`), and prints it if it needs no
    report."""
    totals = results.totals()
    reports = "no reports"
    if totals.places:
        reports = f"{plural(totals.reports, 'report')} at {plural(totals.places, 'place')}"
    if totals.suppressed:
        reports += f", {totals.suppressed} suppressed"
    if totals.known:
        reports += f", {plural(totals.known, 'place')} known from the baseline"
    processes = plural(totals.processes, "process")
    if results.run_count > 1 and not results.are_traces:
        processes += f" in {plural(results.run_count, 'run')}"
    words = [f"asancol: {reports}", f"{processes}, {plural(totals.events, 'event')}"]
    seen = []
    if totals.incomplete:
        seen.append(f"{totals.incomplete} INCOMPLETE")
    elif totals.troubles or not results.runs:
        seen.append("INCOMPLETE")
    elif not totals.unchecked:
        seen.append("all complete")
    if totals.abrupt:
        seen.append(f"{totals.abrupt} ended abruptly")
    if totals.crashed:
        seen.append(f"{totals.crashed} crashed")
    if totals.crashes_suppressed:
        seen.append(f"{plural(totals.crashes_suppressed, 'crash')} suppressed")
    if totals.crashes_known:
        seen.append(f"{plural(totals.crashes_known, 'crash')} known from the baseline")
    if seen:
        words.append(", ".join(seen))
    if results.lists_unchecked and (totals.unchecked or results.system_count()):
        words.append(f"not checked: {unchecked_text(results)}")
    return "; ".join(words)


def unchecked_text(results: Results, most: int = MAX_UNCHECKED_SAID) -> str:
    """Returns the first names of unchecked code and of programs, how many more there are, and how many libraries of the
    system. asancol-run says the same of one run (`unchecked_say`)."""
    programs, libraries = results.unrecorded_count(), results.system_count()
    code = results.unchecked_count() - programs
    texts = [first_names(results.unchecked(), code, most)] if code else []
    if programs:
        names = first_names(results.unrecorded(), programs, most)
        texts.append(f"{plural(programs, 'program')}: {names} (not built with asancol-cc)")
    if libraries:
        texts.append(f"{plural(libraries, 'library')} of the system")
    before = ", ".join(texts[:-1])
    return printable(f"{before}, and {texts[-1]}" if before else texts[-1])


def first_names(names: List[str], count: int, most: int) -> str:
    """Returns the first of some names, and how many more there are."""
    more = count - len(names[:most])
    return ", ".join(names[:most]) + (f" and {more} more" if more else "")
