"""What runs have come to: their processes and findings, merged."""

from __future__ import annotations

import hashlib
import os
from collections import Counter
from typing import Dict, Iterable, List, NamedTuple, Optional, Tuple

from .consequences import fold
from .crashes import Crash, CRASH_CLASSES, CRASHES, end_text, line_of_crash
from .findings import Finding, joined, MAX_NUMBERS, Place, Stack, Tally, Threads
from .leaks import at_one_place, Leaks, total
from .sources import Sources
from .words import command_line, plural, signal_name

# What a run lists for the options of AddressSanitizer that turned checks off begins so (common/format.h).
CHECKS_TURNED_OFF = "checks turned off by "


class Process(NamedTuple):
    """A recorded process."""

    number: int
    pid: int
    parent: int
    command: Tuple[str, ...]
    fate: str
    events: int
    reports: int
    is_complete: bool
    left_out: int
    why: str
    kept: str = ""  # where its trace was kept
    signal: int = 0  # that has ended it, as the recorder saw
    address: Optional[int] = None  # which it could not access then
    stack: Stack = ()  # where it was then
    is_abrupt: bool = False  # nobody saw its end but the system; what it did up to there was seen
    segments: int = 1  # how many of it came: a recording that reaches the limit of events goes on in another
    crash: str = ""  # the class of its crash, if that is not the one of the signal
    fingerprint: str = ""  # of its crash
    access: str = ""  # of that address: "load", "store" or "jump", if that is known
    threads: Threads = Threads()  # the one that signal has met, and those that have led to it
    findings: int = 0  # places that its recorder flags by itself
    is_awaited: bool = False  # its parent has waited for its crash or halt, and the command has ended well all the same
    used_again: int = 0  # how many bytes of blocks it had handed out when freed memory came again; 0: it never has
    has_halted: bool = False  # it has ended itself at its first report, by ASANCOL_HALT
    is_unsaid: bool = False  # and has left it to its run to print that
    test: str = ""  # that was running when a signal ended it

    @property
    def name(self) -> str:
        """Its command line."""
        return command_line(self.command)

    @property
    def is_crash(self) -> bool:
        """Whether a signal has ended it that stands for a mistake."""
        return self.signal in CRASHES and not self.has_halted

    @property
    def crash_class(self) -> str:
        return self.crash if self.crash in CRASH_CLASSES else CRASHES[self.signal]

    @property
    def end(self) -> str:
        """Which signal has ended it, and how that came."""
        return end_text(self.signal, self.crash, self.address, self.access)


class Run:
    """A command, and the processes under it that were recorded."""

    def __init__(self, command: Iterable[str] = (), identity: str = "") -> None:
        self.command = tuple(command)
        self.identity = identity
        self.host = ""
        self.directory = ""
        self.time = 0.0  # seconds since 1970
        self.seconds = 0.0
        self.status = 0
        self.signal = 0
        self.has_ended = True
        self.is_nothing = False  # no process had checks
        self.missing = 0  # how many processes fewer than were asked for
        self.is_running = False  # something of it runs on
        self.has_timed_out = False  # asancol-run has ended the command
        self.lost = 0  # how many runs inside this one left no result
        self.said: Tuple[str, ...] = ()  # why not all was seen: lines of asancol-run
        self.unchecked: Dict[str, None] = {}  # what asancol-cc did not compile
        self.unchecked_more = 0  # how many names are left out
        self.unrecorded: Dict[str, None] = {}  # programs that asancol-cc did not build, by their paths
        self.unrecorded_more = 0  # how many are left out
        self.system: Dict[str, None] = {}  # libraries of the system, without those of C and C++
        self.system_more = 0  # how many names are left out
        self.cut = ""  # it stands for a file that could not be read to its end: why
        self.leaks = Leaks()  # that are no reports
        self.processes: Dict[int, Process] = {}

    @property
    def is_complete(self) -> bool:
        return not self.troubles and all(process.is_complete for process in self.processes.values())

    @property
    def failure(self) -> str:
        """How the command has failed, in words; empty if it has not, or if nobody knows."""
        if self.signal:
            return f"the command was ended by {signal_name(self.signal)}"
        return f"the command ended with status {self.status}" if self.status else ""

    @property
    def troubles(self) -> List[str]:
        """Why the run was incomplete, except its processes."""
        troubles = []
        if not self.has_ended:
            troubles.append("INCOMPLETE: asancol-run ended before the run did")
        # A result without these lines has the fields all the same.
        fields = {"nothing": self.is_nothing, "missing": self.missing, "running": self.is_running,
                  "timed_out": self.has_timed_out, "lost": self.lost}
        troubles += self.said or [f"INCOMPLETE: {name}" for name, value in fields.items() if value]
        if self.cut:
            troubles.append(f"INCOMPLETE: {self.cut}")
        return troubles


class Totals(NamedTuple):
    """The numbers of a summary."""

    reports: int
    places: int
    suppressed: int
    known: int
    processes: int
    events: int
    incomplete: int
    abrupt: int
    crashed: int
    crashes_suppressed: int
    crashes_known: int
    crashes_awaited: int
    troubles: int
    unchecked: int
    leaks: Leaks  # that are none


class Sightings(NamedTuple):
    """In which runs a finding was seen, on which machines, and when these began: seconds since 1970, 0 if unknown."""

    runs: int
    of_command: int  # how many runs have one of the commands of these
    machines: List[str]  # those that are known, by name
    first: float
    last: float
    first_machine: str


class Results:
    """Runs, and the findings of all of them by place."""

    def __init__(self) -> None:
        self.runs: List[Run] = []
        self.identities: Dict[str, int] = {}
        self.places: Dict[Place, Finding] = {}
        self.crash_places: Dict[Tuple[str, str, int, bool], Crash] = {}
        self.counts_awaited = False  # crashes that a parent has waited for are as others
        self.notes: Dict[str, None] = {}  # lines for the reader, each once
        self.unused: List[str] = []  # suppressions that matched nothing
        self.gone: Optional[int] = None  # places of the baseline that were not seen
        self.are_traces = False
        self.lists_unchecked = True  # the unchecked code is listed
        self.demands_checked = False  # and counts as not seen
        # Where the modules of processes lay, by run and process: of those that have a report or a crash, if the text
        # has addresses.
        self.bases: Dict[Tuple[int, int], Dict[str, int]] = {}
        self.has_addresses = False
        self.has_log = False  # each process has a file of its own
        self.are_several: Optional[bool] = None  # command lines; None: nobody has asked
        self.runs_counted = 0  # of which `commands` has the commands
        self.commands: Counter[Tuple[str, ...]] = Counter()

    def note_lines(self) -> None:
        """Notes what has no lines: functions of sources that were compiled without them, if others of the module have
        some, and sources that are newer than their program."""
        counted = [it for it in self.all_places() if it.counts]
        lined = {frame.module for it in counted for frame in it.stack if frame.line}
        functions: Dict[str, Dict[str, None]] = {}
        for top in (it.top for it in counted):
            if top.is_bare and top.function and top.module in lined:
                functions.setdefault(top.module, {})[top.function] = None
            elif top.text and top.caret is None:
                self.notes[f"{top.file} is newer than {top.module}: was that built again?"] = None
        for module, names in functions.items():
            first, *more = names
            others = f" and {plural(len(more), 'more function')}" if more else ""
            self.notes[f"{first}{others} in {module}: no lines, since the source was compiled without -g"] = None

    def add_run(self, run: Run) -> Optional[int]:
        """Adds a run and returns its number. None, if it is there already. One that was cut gives way to its whole."""
        known = self.identities.get(run.identity) if run.identity else None
        if known is not None:
            if not self.runs[known].cut:
                return None
            self.forget(known)
            self.runs[known] = run
            return known
        if run.identity:
            self.identities[run.identity] = len(self.runs)
        self.runs.append(run)
        return len(self.runs) - 1

    def forget(self, run: int) -> None:
        """Takes away what a run has of findings."""
        for place, finding in list(self.places.items()):
            if finding.runs.pop(run, None) is not None and not finding.runs:
                del self.places[place]

    def add_cut(self, path: str, why: str) -> None:
        """Adds a run that stands for what could not be read of a file."""
        run = Run([path], f"cut: {why}")
        run.cut = why
        self.add_run(run)

    def add(self, finding: Finding, run: int, tally: Tally) -> Finding:
        """Adds what a run has of a finding, and returns what stands for it."""
        known = self.places.setdefault(finding.place, finding)
        self.tally(known, run, tally)
        return known

    def place_crashes(self, sources: Sources) -> None:
        """Gives each process that has crashed the fingerprint of its crash, and puts crashes at one place together."""
        for number, run in enumerate(self.runs):
            for process in [process for process in run.processes.values() if process.is_crash]:
                program = program_of(run, process)
                crash = Crash(process.crash_class, process.signal, process.address, process.end, program, process.stack)
                crash.reports = process.reports + process.findings
                crash.threads = process.threads
                crash.is_awaited = self.is_awaited(process)
                crash.fingerprint = process.fingerprint
                if not crash.fingerprint:
                    crash.set_fingerprint(sources)
                    run.processes[process.number] = process._replace(fingerprint=crash.fingerprint)
                place = (crash.class_name, crash.fingerprint, crash.top.line, crash.is_awaited)
                known = self.crash_places.setdefault(place, crash)
                tally = Tally(1, 1, process.number, process.pid, process.events, process.segments)
                self.tally(known, number, tally._replace(numbers=(process.number,),
                                                         tests=(process.test,) if process.test else ()))

    def crash_of(self, process: Process) -> Optional[Crash]:
        """Returns what stands for the crash of a process; None, if it has not crashed."""
        if not process.is_crash:
            return None
        return self.crash_places.get((process.crash_class, process.fingerprint, line_of_crash(process.stack),
                                      self.is_awaited(process)))

    def join_judged(self) -> None:
        """Puts together again what differs only in the suppression that once matched, and is judged alike now."""
        first: Dict[Tuple[Place, bool], Finding] = {}
        for place, finding in list(self.places.items()):
            known = first.setdefault((place._replace(rule=""), bool(finding.suppression)), finding)
            if known is not finding:
                del self.places[place]
                for run, tally in finding.runs.items():
                    self.tally(known, run, tally)

    def judge_awaited(self) -> None:
        """Says of each finding whether parents have waited for all processes that ended there."""
        for finding in self.places.values():
            finding.is_awaited = not self.counts_awaited and all(it.is_awaited for it in finding.runs.values())

    def is_awaited(self, process: Process) -> bool:
        return process.is_awaited and not self.counts_awaited

    @staticmethod
    def tally(finding: Finding, run: int, tally: Tally) -> None:
        before = finding.runs.get(run)
        if before is not None:
            tally = before._replace(times=before.times + tally.times, processes=before.processes + tally.processes,
                                    lost=at_one_place([before.lost, tally.lost]),
                                    is_awaited=before.is_awaited and tally.is_awaited,
                                    numbers=tuple(sorted({*before.numbers, *tally.numbers})[:MAX_NUMBERS]),
                                    tests=joined((before.tests, tally.tests)))
        finding.runs[run] = tally

    def command_counts(self) -> Counter[Tuple[str, ...]]:
        """Returns how many runs have each command. There may be a hundred thousand: they are counted once."""
        if self.runs_counted != len(self.runs):
            self.runs_counted = len(self.runs)
            self.commands = Counter(run.command for run in self.runs)
        return self.commands

    def has_several_commands(self) -> bool:
        """Whether the processes have several command lines, as those of a suite have. It is asked at the end."""
        if self.are_several is None:
            commands = (process.command for run in self.runs for process in run.processes.values() if process.command)
            first = next(commands, ())
            self.are_several = any(command != first for command in commands)
        return self.are_several

    def sightings(self, finding: Finding) -> Sightings:
        """Returns where and when a finding was seen. The order of the runs changes nothing."""
        runs = [self.runs[number] for number in finding.runs]
        counts = self.command_counts()
        of_command = sum(counts[command] for command in {run.command for run in runs})
        first = min(((run.time, run.host) for run in runs if run.time), default=(0.0, ""))
        return Sightings(len(runs), of_command, sorted({run.host for run in runs if run.host}), first[0],
                         max(run.time for run in runs), first[1])

    def bases_of(self, finding: Finding) -> Dict[str, int]:
        """Returns where the modules of a finding's first process lay, by their paths; nothing, if nobody knows."""
        return self.bases.get((next(iter(finding.runs)), finding.first.process), {})

    def has_halted(self, finding: Finding) -> bool:
        process = self.first_process(finding)
        return process is not None and process.has_halted

    def program_of(self, finding: Finding) -> str:
        """Returns the path of the program of a finding's first process."""
        return program_of(self.runs[next(iter(finding.runs))], self.first_process(finding))

    def first_process(self, finding: Finding) -> Optional[Process]:
        return self.runs[next(iter(finding.runs))].processes.get(finding.first.process)

    def forget_machines(self) -> None:
        """Takes away the names of machines, and when the runs were. An id has both in it, and is replaced."""
        for run in self.runs:
            run.host, run.time, run.seconds = "", 0.0, 0.0
            if run.identity:
                run.identity = hashlib.sha256(run.identity.encode("utf-8", "surrogateescape")).hexdigest()[:32]

    def findings(self) -> List[Finding]:
        """Returns all findings in the order of time, so that a cause stands before what came of it."""
        return sorted(self.places.values(), key=lambda finding: (finding.order, finding.fingerprint))

    def placed_crashes(self) -> List[Crash]:
        """Returns the places of crashes, the same. Those that no report has led to come first."""
        return sorted(self.crash_places.values(), key=lambda it: (it.is_consequence, it.order, it.fingerprint))

    def all_places(self) -> List[Finding]:
        return [*self.findings(), *self.placed_crashes()]

    def counted(self) -> List[Finding]:
        return [finding for finding in self.findings() if finding.counts]

    def counted_crashes(self) -> List[Crash]:
        return [crash for crash in self.placed_crashes() if crash.counts]

    def fold(self) -> None:
        """Puts what may follow from an earlier report of its process under that one. One that does not count has none
        under it, so that what it has led to is seen."""
        alike: Dict[str, int] = {}
        counted: List[Finding] = []
        for finding in self.findings():
            finding.ordinal = alike[finding.fingerprint] = alike.get(finding.fingerprint, 0) + 1
            finding.forget_consequences()
            if finding.counts:
                counted.append(finding)
        last = fold(counted)
        for crash in self.crash_places.values():
            crash.forget_consequences()
            crash.follows = last.get(crash.first_process) if crash.counts else None

    def incomplete(self) -> List[Tuple[Run, Process]]:
        return [(run, process) for run in self.runs for process in run.processes.values() if not process.is_complete]

    def abrupt(self) -> List[Process]:
        return [process for run in self.runs for process in run.processes.values() if process.is_abrupt]

    def crashes(self) -> List[Process]:
        """Returns those that count and have no other line."""
        processes = [run.processes[number] for run in self.runs for number in sorted(run.processes)]
        return [it for it in processes if it.is_crash and not it.is_abrupt and (it.is_complete or it.stack)
                and self.has_counted_crash(it)]

    def has_counted_crash(self, process: Process) -> bool:
        crash = self.crash_of(process)
        return crash is not None and crash.counts

    def has_crash(self) -> bool:
        return any(crash.counts for crash in self.crash_places.values())

    def is_complete(self) -> bool:
        return bool(self.runs) and all(run.is_complete for run in self.runs) and not (
            self.demands_checked and self.unchecked_count())

    def unchecked(self) -> List[str]:
        """Returns the names of unchecked code, in their order, without libraries of the system."""
        return sorted({name for run in self.runs for name in run.unchecked})

    def system_count(self) -> int:
        """Returns how many libraries of the system were not checked."""
        return len({name for run in self.runs for name in run.system}) + sum(run.system_more for run in self.runs)

    def unrecorded(self) -> List[str]:
        """Returns the programs that asancol-cc did not build, in their order."""
        return sorted({name for run in self.runs for name in run.unrecorded})

    def unrecorded_count(self) -> int:
        return len(self.unrecorded()) + sum(run.unrecorded_more for run in self.runs)

    def unchecked_count(self) -> int:
        """Returns how much was not checked, without libraries of the system."""
        return len(self.unchecked()) + sum(run.unchecked_more for run in self.runs) + self.unrecorded_count()

    def has_unchecked_news(self) -> bool:
        """Whether there is more than what the options of AddressSanitizer have turned off (`unchecked_is_news`)."""
        told = sum(name.startswith(CHECKS_TURNED_OFF) for name in self.unchecked())
        return self.unchecked_count() > told

    @property
    def run_count(self) -> int:
        """How many runs there are, without those that stand for a file."""
        return sum(not run.cut for run in self.runs)

    def totals(self) -> Totals:
        reports = places = suppressed = known = 0
        for finding in self.places.values():
            if finding.suppression:
                suppressed += finding.count
            elif finding.is_known:
                known += 1
            elif finding.counts:
                places += 1
                reports += finding.count
        processes = [process for run in self.runs for process in run.processes.values()]
        crashes = list(self.crash_places.values())
        return Totals(reports, places, suppressed, known, len(processes), sum(it.events for it in processes),
                      sum(not it.is_complete for it in processes), sum(it.is_abrupt for it in processes),
                      sum(it.count for it in crashes if it.counts), sum(it.count for it in crashes if it.suppression),
                      sum(it.count for it in crashes if it.is_known and not it.suppression),
                      sum(it.count for it in crashes if it.is_awaited and not (it.is_known or it.suppression))
                      + sum(it.has_halted and self.is_awaited(it) for it in processes),
                      sum(len(run.troubles) for run in self.runs), self.unchecked_count(),
                      total(run.leaks for run in self.runs))


def program_of(run: Run, process: Optional[Process]) -> str:
    """Returns the path of a process's program, as far as it is known."""
    argv = (process.command if process else ()) or run.command
    return os.path.normpath(os.path.join(run.directory, argv[0])) if argv and "/" in argv[0] else "".join(argv[:1])

