"""The report as JUnit XML: a test case for each run, for each test that a report names, and if the run has processes of
several commands, as a suite has, for each command. A test case passes if no report and no crash counts, the command did
not fail, and all was complete."""

from __future__ import annotations

import copy
import io
import os
import re
from typing import Dict, Iterable, Iterator, List, NamedTuple, Optional, Set, TextIO, Tuple
from xml.sax.saxutils import escape

from .crashes import Crash
from .findings import Finding, place_text
from .options import Options
from .results import Process, Results, Run
from .sources import Sources
from .text import abrupt_lines, Colors, incomplete_lines, lines_of, Text
from .words import command_line, date_and_time, printable, shown_path

# What XML 1.0 does not allow, whether it is escaped or not.
NOT_XML = re.compile("[^\t\n\r\x20-\ud7ff\ue000-\ufffd\U00010000-\U0010ffff]")
# The most places that a failure's message names.
MAX_NAMED = 5


def text_of(text: str) -> str:
    return escape(NOT_XML.sub("\ufffd", text))


def attribute(text: str) -> str:
    return text_of(printable(text)).replace('"', "&quot;")


def element(name: str, kind: str, message: str, text: str) -> str:
    return f'<{name} type="{attribute(kind)}" message="{attribute(message)}">{text_of(text)}</{name}>'


class Case(NamedTuple):
    """A test case."""

    run: int
    processes: List[Process]
    is_run: bool  # it stands for the run as a whole
    test: str = ""  # or for what came up in this test, in any process of the run

    @property
    def own_processes(self) -> List[Process]:
        """Those of which the case says how they were recorded. Of those of a test another case says so."""
        return [] if self.test else self.processes


def tests_of(results: Results) -> Dict[int, Dict[str, None]]:
    """Returns the tests in which something came up, by run."""
    tests: Dict[int, Dict[str, None]] = {}
    for finding in (*results.counted(), *results.counted_crashes()):
        for number, tally in finding.runs.items():
            tests.setdefault(number, {}).update(dict.fromkeys(tally.tests))
    return tests


def cases_of(number: int, run: Run, tests: Iterable[str]) -> List[Case]:
    """Returns the test cases of a run. The processes of one command are one: most are children by a fork."""
    processes = [run.processes[it] for it in sorted(run.processes)]
    commands: Dict[Tuple[str, ...], List[Process]] = {}
    for process in processes:
        commands.setdefault(process.command, []).append(process)
    of_tests = [Case(number, processes, False, test) for test in tests]
    if len(commands) < 2:
        return [Case(number, processes, True), *of_tests]
    return [Case(number, [], True), *(Case(number, those, False) for those in commands.values()), *of_tests]


def part_of(finding: Finding, case: Case) -> Finding:
    """Returns what a test case has of a finding."""
    tally = finding.runs[case.run]
    numbers = tally.numbers or (tally.process,)
    first = next((it for it in case.processes if it.number in numbers), None)
    part = copy.copy(finding)
    part.runs = {case.run: tally if first is None else tally._replace(process=first.number, pid=first.pid)}
    part.also = [part_of(other, case) for other in finding.also if case.run in other.runs]
    part.later = [other for other in finding.later if case.run in other.runs]
    return part


def failure(places: List[Finding], case: Case, results: Results, root: str) -> str:
    """Returns the element that has the reports and crashes of a test case."""
    processes = results.runs[case.run].processes
    out = io.StringIO()
    text = Text(out, Colors(False), root, has_suppressions=False)
    all_of_case = set(places)
    parts = [part_of(finding, case) for finding in places]
    for finding, part in zip(places, parts):
        if not isinstance(finding, Crash) and finding.follows not in all_of_case:
            text.write(text.finding(part))
    text.write(text.crashes(results, (it for it in case.processes
                                      if it.test == case.test and results.has_counted_crash(it))))
    text.write(commands_of(processes.get(part.runs[case.run].process) for part in parts))
    named = [named_place(finding, root) for finding in places[:MAX_NAMED]]
    if len(places) > MAX_NAMED:
        named.append(f"and {len(places) - MAX_NAMED} more")
    return element("failure", places[0].class_name, "; ".join(named), out.getvalue())


def commands_of(processes: Iterable[Optional[Process]]) -> Iterator[str]:
    """Yields what the processes of the text are: a test is known by its arguments."""
    named = {process.pid: process for process in processes if process and process.command}
    if named:
        yield "processes"
    for number, process in sorted(named.items()):
        yield f"  {number} {printable(command_line(process.command))}"


def named_place(finding: Finding, root: str) -> str:
    function = f"{finding.top.function} " if finding.top.function else ""
    return f"{finding.title} in {function}{shown_path(place_text(finding.top), root)}"


def unseen(case: Case, run: Run) -> List[str]:
    """Returns why not all was seen."""
    lines = incomplete_lines(process for process in case.own_processes if not process.is_complete)
    return [*lines, *(f"asancol: {trouble}" for trouble in run.troubles if case.is_run)]


def outcome(case: Case, places: List[Finding], results: Results, root: str) -> Tuple[str, str]:
    """Returns what came of a test case, `failure`, `error` or nothing, and the elements that say so."""
    run = results.runs[case.run]
    incomplete, failed = unseen(case, run), run.failure if case.is_run else ""
    said = "\n".join([*incomplete, *[f"asancol: {failed}"] * bool(failed)])
    beside = "\n".join([*abrupt_lines(process for process in case.own_processes if process.is_abrupt),
                        *lines_of(filter(results.is_awaited, case.own_processes), lambda it: it.end)])
    said = "\n".join(filter(None, (said, beside)))
    if places:
        body = failure(places, case, results, root)
        return "failure", body + (f"<system-err>{text_of(said)}</system-err>" if said else "")
    if incomplete:
        return "error", element("error", "incomplete", incomplete[0], said)
    if failed:
        return "failure", element("failure", "command", failed, said)
    return "", f"<system-out>{text_of(beside)}</system-out>" if beside else ""


def names_of(cases: List[Case], runs: List[Run], root: str) -> List[str]:
    """Returns a name for each test case, and no two that are the same. A program below the root has its path from
    there. Runs of one command on one machine have their folders in it, as seen from the one that all of them are in.
    Others, and those in one folder, are numbered."""
    same: Dict[str, List[Run]] = {}
    for run in runs:
        same.setdefault(command_line(run.command), []).append(run)
    folders = {command: folders_of(those) for command, those in same.items()}
    names: Dict[str, int] = {}  # and how often each came up
    for case in cases:
        run = runs[case.run]
        command = command_line(run.command)
        name = first = name_of(run.command or ("run",), root) + folders[command].get(run.directory, "")
        if case.test:
            name = first = f"{first}: {case.test}"
        elif not case.is_run:
            name = first = name_of(case.processes[0].command or ("process",), run.directory)
        while name in names:
            names[first] += 1
            name = f"{first} #{names[first]}"
        names[name] = 1
    return list(names)


def name_of(command: Tuple[str, ...], folder: str) -> str:
    program, *others = command
    return command_line([shown_path(program, folder), *others])


def folders_of(runs: List[Run]) -> Dict[str, str]:
    """Returns what the folders of runs add to their names; nothing, if they are not on one machine that is known."""
    folders = {run.directory for run in runs}
    hosts = {run.host for run in runs}
    if len(folders) < 2 or len(hosts) > 1 or not all(hosts) or not all(it.startswith("/") for it in folders):
        return {}
    top = os.path.commonpath(sorted(folders))
    return {folder: f" (in {os.path.relpath(folder, top)})" for folder in folders}


def when_and_where(runs: List[Run]) -> str:
    begun = [run.time for run in runs if run.time]
    hosts = {run.host for run in runs if run.host}
    when = f' timestamp="{date_and_time(min(begun), "%Y-%m-%dT%H:%M:%S")}"' if begun else ""
    return when + (f' hostname="{attribute(hosts.pop())}"' if len(hosts) == 1 else "")


def places_of(results: Results, cases: List[Case]) -> List[List[Finding]]:
    """Returns the places of each test case."""
    owners: Dict[Tuple[int, int], int] = {}  # by run and process
    of_run: Dict[int, int] = {}
    of_test: Dict[Tuple[int, str], int] = {}
    for at, case in enumerate(cases):
        if case.is_run:
            of_run[case.run] = at
        if case.test:
            of_test[case.run, case.test] = at
        owners.update(((case.run, process.number), at) for process in case.own_processes)
    places: List[List[Finding]] = [[] for _ in cases]
    for finding in (*results.counted(), *results.counted_crashes()):
        for number, tally in finding.runs.items():
            numbers = tally.numbers or (tally.process,)
            found: Set[int] = {of_test[number, it] for it in tally.tests}
            for at in found or {owners.get((number, it), of_run[number]) for it in numbers}:
                places[at].append(finding)
    return places


def write(results: Results, out: TextIO, options: Options, sources: Sources) -> None:
    root = os.path.realpath(options.value("--source-root", "."))
    tests = tests_of(results)
    cases = [case for number, run in enumerate(results.runs) for case in cases_of(number, run, tests.get(number, ()))]
    outcomes = [outcome(case, places, results, root) for case, places in zip(cases, places_of(results, cases))]
    failures, errors = (sum(kind == name for kind, _ in outcomes) for name in ("failure", "error"))
    seconds = sum(run.seconds for run in results.runs)
    counts = f'tests="{len(outcomes)}" failures="{failures}" errors="{errors}" time="{seconds:.3f}"'
    out.write(f'<?xml version="1.0" encoding="UTF-8"?>\n<testsuites {counts}>\n')
    out.write(f' <testsuite name="asancol" {counts}{when_and_where(results.runs)}>\n')
    for name, case, (_, body) in zip(names_of(cases, results.runs, root), cases, outcomes):
        took = results.runs[case.run].seconds if case.is_run else 0
        words = f'classname="asancol" name="{attribute(name)}" time="{took:.3f}"'
        out.write(f"  <testcase {words}>{body}</testcase>\n")
    out.write(" </testsuite>\n</testsuites>\n")
