#!/usr/bin/env python3
"""Measures what one process, one connection and one result cost: the figures from which docs/SCALE.md counts a farm.

usage: run/tests/bench_scale.py ASANCOL [WORD..]

Times are of processors, user and system, the least of some rounds: so they hold on a machine that has other work, too.
A line has a figure, its unit and what it is of. It takes two or three minutes. With words only these parts are
measured: merges, results, traces, processes, kept, crowds, events, connections, systemd.
"""

import functools
import os
import resource
import shutil
import struct
import subprocess
import sys
import tempfile
import time
from typing import Callable, Dict, List, Optional, Sequence, Tuple

sys.path.insert(0, f"{os.path.dirname(os.path.realpath(__file__))}/../..")  # where `testing` is

import bench_report
import crowds
import service
from support import REPORT, RUN, TESTS, Suite, leave_out, wait_until, write_text

MILLION = 1000000
ROUNDS = 5
CONNECTIONS = 100
MANY = 2000
CROWDS = (1000, 10000, 100000)
HEADER = service.HEADER


def show(figure: float, unit: str, of: str) -> None:
    text = f"{figure:,.0f}" if figure >= 100 else f"{figure:.3g}"
    print(f"{text:>12} {unit:<6} {of}", flush=True)


def processor(run_it: Callable[[], object]) -> float:
    """Returns the seconds of processors that what it starts has taken."""
    before = resource.getrusage(resource.RUSAGE_CHILDREN)
    run_it()
    after = resource.getrusage(resource.RUSAGE_CHILDREN)
    return after.ru_utime + after.ru_stime - before.ru_utime - before.ru_stime


def least(run_it: Callable[[], object], rounds: int = ROUNDS) -> float:
    return min(processor(run_it) for _ in range(rounds))


class Bench:
    """A folder, the programs, and what runs them."""

    def __init__(self, asancol: str, folder: str) -> None:
        self.suite, self.folder = Suite(asancol, ["no test"]), folder
        self.asancol = self.suite.asancol
        self.suite.prepare()
        self.native = f"{folder}/native"
        compiler = os.environ.get("ASANCOL_CC", "cc").split()
        subprocess.run([*compiler, "-g", "-O1", f"{TESTS}/programs.c", "-o", self.native], check=True)
        self.environment = self.suite.environment(ASANCOL_REPORT=REPORT)

    def run(self, *argv: str, given: Optional[str] = None, output: str = os.devnull, **settings: str) -> None:
        with open(given or os.devnull, "rb") as standard, open(output, "wb") as out:
            subprocess.run(argv, stdin=standard, stdout=out, stderr=subprocess.DEVNULL, check=False,
                           env={**self.environment, **settings}, cwd=self.folder)

    # One process.

    def results(self) -> None:
        for word, of in (("sound", "a clean test"), ("past", "a test with a report")):
            path = f"{self.folder}/{word}.jsonl"
            self.run(RUN, "-q", "--json", path, "--", self.suite.program, word)
            show(os.path.getsize(path), "bytes", f"the result of {of}")

    def traces(self) -> None:
        path = f"{self.folder}/t.trace"
        self.run(self.suite.program, "many", str(MILLION // 2), ASANCOL_TRACE=path, ASANCOL_WHERE="1")
        show(os.path.getsize(path) / MILLION, "bytes", "an event of a trace, half mallocs and half frees")
        show(os.stat(f"{path}.where").st_blocks * 512, "bytes", "on the disk beside a trace without a report")

    def processes(self) -> None:
        loops = 50
        line = f"i=0; while [ $i -lt {loops} ]; do %s sound; i=$((i+1)); done"
        ways = {
            "a short process": ["sh", "-c", line % self.native],
            "the same under asancol-run, with others": [RUN, "-q", "--", "sh", "-c", line % self.suite.program],
            "the same under an asancol-run for it alone": ["sh", "-c", line % f"{RUN} -q -- {self.suite.program}"],
        }
        for of, argv in ways.items():
            show(1000 * least(functools.partial(self.run, *argv)) / loops, "ms", of)

    def kept(self) -> None:
        """What asancol-run still holds of processes that have ended."""
        sizes = []
        for count in (0, MANY):
            path = f"{self.folder}/resident"
            line = f"i=0; while [ $i -lt {count} ]; do {self.suite.program} sound > /dev/null; i=$((i+1)); done; "
            line += f"sleep 1; grep VmRSS /proc/$PPID/status > {path}"
            self.run(RUN, "-q", "--", "sh", "-c", line)
            sizes.append(int(service.text_of(path).split()[1]))
        show((sizes[1] - sizes[0]) * 1024 / MANY, "bytes", "that asancol-run holds of a process that has ended")

    def crowds(self) -> None:
        """What asancol-run itself takes and holds for processes that cost nearly nothing."""
        crowd, found = f"{self.folder}/crowd", []
        crowds.build(crowd)
        for count in CROWDS:
            path = f"{self.folder}/of_crowd"
            wait = "while [ $(ls /proc/$PPID/fd | wc -l) -gt 30 ]; do sleep 0.2; done"
            line = f"{crowd} {count}; {wait}; cat /proc/$PPID/stat > {path}"
            self.run(RUN, "-q", "--", "sh", "-c", line)
            words = service.text_of(path).rsplit(")", 1)[1].split()
            ticks, pages = int(words[11]) + int(words[12]), int(words[21])
            found.append((count, ticks / os.sysconf("SC_CLK_TCK"), pages * os.sysconf("SC_PAGE_SIZE")))
            show(1000 * found[-1][1] / count, "ms", f"of asancol-run for one of {count:,} processes")
        (few, _, before), (many, _, after) = found[-2:]
        show((after - before) / (many - few), "bytes", "that asancol-run holds of one more")

    # Events.

    def write_events(self, name: str, record: Callable[[int], bytes]) -> str:
        path = f"{self.folder}/{name}.trace"
        with open(path, "wb") as file:
            file.write(HEADER + b"".join(record(it) for it in range(MILLION)) + b"\7")
        return path

    def events(self) -> None:
        def place(number: int) -> int:
            return 0x10000000 + 128 * number

        def malloc(number: int) -> bytes:
            return b"\3" + struct.pack("<QQ", place(number), 16)

        def malloc_or_free(number: int) -> bytes:
            return malloc(number) if number % 2 == 0 else b"\4" + struct.pack("<Q", place(number - 1))

        def bad_load(number: int) -> bytes:
            return malloc(0) if number == 0 else b"\1\4" + struct.pack("<Q", place(0) + 16)

        kinds: Dict[str, Callable[[int], bytes]] = {
            "mallocs": malloc, "mallocs and frees": malloc_or_free, "bad loads, each with its line": bad_load}
        for number, (kind, record) in enumerate(kinds.items()):
            path = self.write_events(str(number), record)
            show(least(functools.partial(self.run, self.asancol, given=path, output=f"{self.folder}/lines")), "s",
                 f"a million {kind}")
        show(os.path.getsize(f"{self.folder}/lines") / MILLION, "bytes", "a line of a report")

    # The service.

    def connections(self) -> None:
        served = service.Service(self.suite, f"{self.folder}/service")

        def connect() -> None:
            for _ in range(CONNECTIONS):
                served.record(self.suite.program, "sound")
            wait_until(lambda: all(it.status != "open" for it in served.results()), "the results")

        programs = processor(connect)
        served.program.terminate()
        both = processor(lambda: served.program.wait())
        show(1000 * both / CONNECTIONS, "ms", "a connection of asancol-listen, with its asancol")
        show(1000 * programs / CONNECTIONS, "ms", "the recorded process that has connected")

    def connections_of_systemd(self) -> None:
        """Processor time of the first process and of all that it has waited for, in ticks."""
        folder = f"{self.folder}/systemd"
        units = service.install_units(self.suite, service.PREFIX, folder)
        top = f"{folder}{service.PREFIX}"
        shutil.copy(self.suite.program, f"{top}/programs")
        os.chmod(f"{top}/programs", 0o755)
        ticks = "read -r line < /proc/1/stat; set -- $line; echo $((${14} + ${15} + ${16} + ${17})) >> ticks"
        probe = f"""#!/bin/sh
cd {service.PREFIX}
systemctl start asancol.socket
{ticks}
i=0; while [ $i -lt {CONNECTIONS} ]; do ASANCOL_SOCKET=/run/asancol.sock ./programs sound; i=$((i+1)); done
while systemctl list-units --all --no-legend 'asancol@*' | grep -q .; do sleep 0.5; done
{ticks}
systemctl poweroff --force --force
"""
        write_text(f"{top}/probe", probe, 0o755)
        service.boot(folder, units)
        first, last = (int(it) for it in service.text_of(f"{top}/ticks").split())
        show(1000 * (last - first) / os.sysconf("SC_CLK_TCK") / CONNECTIONS, "ms",
             "a connection of systemd, with its asancol")

    # Results of all.

    def merges(self) -> None:
        """Twice, to see what one more costs."""
        counts, runs = [], []
        for jobs in (bench_report.JOBS // 5, bench_report.JOBS):
            bench_report.JOBS = jobs
            path = bench_report.a_farm(f"{self.folder}/{jobs}")
            counts.append(jobs * bench_report.RESULTS_OF_A_JOB)
            found = [bench_report.measure(self.folder, [path]) for _ in range(3)]
            runs.append([min(it[column] for it in found) for column in range(3)])
            for figure, unit, of in zip(runs[-1], ("s", "s", "MB"), ("wall clock", "processor", "memory")):
                show(figure, unit, f"to merge {counts[-1]:,} results: {of}")
        size = sum(os.path.getsize(f"{path}/{name}") for name in os.listdir(path))
        show(size / counts[1], "bytes", "a result of these")
        more = counts[1] - counts[0]
        show((runs[1][1] - runs[0][1]) / more * MILLION, "us", "one result more: processor")
        show((runs[1][2] - runs[0][2]) / more * 1024 * 1024, "bytes", "one result more: memory")


def rows(bench: Bench) -> Sequence[Tuple[str, Callable[[], None]]]:
    # Merges come first: what this holds counts as memory of what it starts.
    found: List[Tuple[str, Callable[[], None]]] = [
        ("merges", bench.merges), ("results", bench.results), ("traces", bench.traces),
        ("processes", bench.processes), ("kept", bench.kept), ("crowds", bench.crowds), ("events", bench.events),
        ("connections", bench.connections)]
    if shutil.which("systemd-nspawn") and bench.suite.run_argv([*service.CONTAINER, "/usr/bin/true"]).status == 0:
        found.append(("systemd", bench.connections_of_systemd))
    else:
        leave_out("systemd-nspawn is not there, or has no container")
    return found


def main() -> int:
    if len(sys.argv) < 2:
        print((__doc__ or "").split("\n\n")[1], file=sys.stderr)
        return 2
    with tempfile.TemporaryDirectory(prefix="asancol-scale-") as name:
        folder = os.path.realpath(name)
        bench = Bench(os.path.abspath(sys.argv[1]), folder)
        print(f"{len(os.sched_getaffinity(0))} processors, load {os.getloadavg()[0]:.1f}; {time.strftime('%Y-%m-%d')}")
        for word, measure in rows(bench):
            if len(sys.argv) < 3 or word in sys.argv[2:]:
                measure()
        shutil.rmtree(bench.suite.folder, ignore_errors=True)
    return 0


if __name__ == "__main__":
    sys.exit(main())
