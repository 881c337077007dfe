"""--log-path: the reports of each process in a file of its own, as AddressSanitizer's `log_path` has them."""

from __future__ import annotations

import copy
import os
import signal
import sys
from typing import Callable, Iterator, List, Set

from .asan_text import AsanText
from .crashes import Crash
from .errors import reason
from .files import encoded
from .findings import Finding
from .gather import Gatherer
from .results import Process, Results
from .text import Colors


# The signals whose handlers AddressSanitizer does not install by default (`handle_abort` and the like).
UNHANDLED = {signal.SIGABRT, signal.SIGILL, signal.SIGTRAP, signal.SIGSYS}


class LogPath:
    """The files whose names begin so. One that an earlier run has left is written anew. One that can't be written is
    passed to `fail`. If they stand for AddressSanitizer's own (`is_alone`), a process that a signal of UNHANDLED ended
    has no file for that, and no other place has the reports: standard output gets those that no file takes."""

    def __init__(self, prefix: str, root: str, results: Results, counts: Callable[[Finding], bool],
                 is_alone: bool, fail: Callable[[str], None]) -> None:
        self.prefix = prefix
        self.root = root
        self.results = results
        self.counts = counts
        self.is_alone = is_alone
        self.silent = UNHANDLED if is_alone else set()
        self.fail = fail
        self.reasons: Set[str] = set()  # why files could not be written, as far as that was said
        self.begun: Set[int] = set()  # processes that have a file
        self.live: Set[int] = set()  # runs whose processes came one by one

    def take(self, gatherer: Gatherer) -> None:
        """Writes what a process has brought that was just taken in."""
        self.live.add(gatherer.run)
        findings, processes = gatherer.came.findings, gatherer.came.processes
        gatherer.came.findings, gatherer.came.processes = [], []
        self.write(findings)
        for process in processes:
            self.write_crash(gatherer.run, process)

    def take_others(self) -> None:
        """Writes the reports read from earlier results."""
        for number, run in enumerate(self.results.runs):
            if number in self.live:
                continue
            for finding in self.results.findings():
                if number in finding.runs:
                    one = copy.copy(finding)
                    one.runs = {number: finding.runs[number]}
                    self.write([one])
            for process in run.processes.values():
                self.write_crash(number, process)

    def write(self, findings: List[Finding]) -> None:
        counted = [finding for finding in findings if self.counts(finding)]
        for pid in dict.fromkeys(finding.first.pid for finding in counted):
            those = sorted((it for it in counted if it.first.pid == pid), key=lambda it: it.order)
            self.append(pid, lambda text: text.findings_text(those, self.results))

    def write_crash(self, run: int, process: Process) -> None:
        if not process.is_crash or process.signal in self.silent:
            return
        crash = Crash(process.crash_class, process.signal, process.address, process.end, "", process.stack)
        bases = self.results.bases.get((run, process.number), {})
        if self.counts(crash):
            self.append(process.pid, lambda text: text.crash(crash, process, bases))

    def append(self, pid: int, lines: Callable[[AsanText], Iterator[str]]) -> None:
        path = f"{self.prefix}.{pid}"
        how = os.O_WRONLY | os.O_CREAT | os.O_CLOEXEC | (os.O_APPEND if pid in self.begun else os.O_TRUNC)
        self.begun.add(pid)
        try:
            with encoded(os.open(path, how, 0o666)) as out:
                text = AsanText(out, Colors(False), self.root, False)
                text.write(lines(text))
        except OSError as error:
            self.go_without(path, reason(error))
            if self.is_alone:
                text = AsanText(sys.stdout, Colors(False), self.root, False)
                text.write(lines(text))

    def go_without(self, path: str, why: str) -> None:
        if why not in self.reasons:
            self.fail(f"{path}: {why}{'; its reports are printed instead' * self.is_alone}")
        self.reasons.add(why)
