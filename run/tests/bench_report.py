#!/usr/bin/env python3
"""Measures asancol-report: wall time, time of processors, and the most memory that was resident.

usage: run/tests/bench_report.py

Each row is the best of three runs. The status is 1 if a row is over its bar.
"""

import json
import os
import sys
import tempfile
from typing import Any, Callable, Dict, List, NamedTuple

sys.path.insert(0, f"{os.path.dirname(os.path.realpath(__file__))}/../..")  # where `testing` is

from testing import measuring, reports, side
from testing.reports import END, FREED, freed_block

MANY_LINES = 100000
MANY_PLACES = 2000
RESULT_LINES = 1000000
JOBS, RESULTS_OF_A_JOB = 1000, 100
# Of this many results one has a finding, at one of this many places.
ONE_HAS, PLACES_OF_A_FARM = 10, 500


class Measured(NamedTuple):
    seconds: float
    processor: float  # seconds, of all that it started
    megabytes: float


def measure(folder: str, argv: List[str], **settings: str) -> Measured:
    with open(os.path.join(folder, "out"), "wb") as out:
        used = measuring.measure([reports.REPORT, *argv], stdout=out, env=reports.settings_in(folder, **settings))
    if used.status not in (0, 1):
        raise SystemExit(f"{' '.join(argv)} ended with {used.status}")
    return Measured(used.wall, used.processor, used.memory / (1 << 20))


def one_report(folder: str) -> str:
    program = reports.build(folder)
    return reports.write_trace(folder, "one.trace", FREED + END,
                             side.of_program(program, [freed_block(program)], [0, 0, 0, 0, 1]))


def one_place(folder: str) -> str:
    program = reports.build(folder)
    lines = "".join(FREED.replace("#5", f"#{n}") for n in range(1, MANY_LINES + 1))
    parts = side.of_program(program, [freed_block(program)], [1] * MANY_LINES)
    return reports.write_trace(folder, "loop.trace", lines + END, parts)


def many_places(folder: str) -> str:
    """Functions in a file, each with a call."""
    body = "".join(f'__attribute__((noinline)) void f{n}(void) {{ here("f{n}"); __asm__ volatile(""); }}\n'
                   for n in range(MANY_PLACES))
    calls = "".join(f"f{n}(); " for n in range(MANY_PLACES))
    source = reports.PLACES_C.replace("int main(void) {", body + "int main(void) { " + calls)
    program = reports.build(folder, "wide", source)
    faults = [side.fault(program.places[f"f{n}"], 0x2000, 16, program.places["make"], program.places["drop"])
              for n in range(MANY_PLACES)]
    lines = "".join(FREED.replace("#5", f"#{n}") for n in range(1, MANY_PLACES + 1))
    parts = side.of_program(program, faults, list(range(1, MANY_PLACES + 1)))
    return reports.write_trace(folder, "wide.trace", lines + END, parts)


def results(folder: str) -> str:
    """A thousand runs, each with processes and findings, of 2,000 places."""
    path = os.path.join(folder, "all.jsonl")
    runs, each = 1000, RESULT_LINES // 2000
    with open(path, "w", encoding="utf-8") as file:
        for run in range(runs):
            entries = [{"type": "run", "version": 1, "run": run, "id": f"run-{run}", "command": ["test"]}]
            entries += [result_process(run, n) for n in range(each)]
            entries += [result_finding(run, n, (run * each + n) % MANY_PLACES) for n in range(each - 1)]
            file.writelines(json.dumps(entry) + "\n" for entry in entries)
    return path


def a_farm(folder: str) -> str:
    """A folder with what a thousand jobs left: for each a file, with a hundred results one after another."""
    path = os.path.join(folder, "results")
    os.makedirs(path, exist_ok=True)
    for job in range(JOBS):
        with open(os.path.join(path, f"{job:04}.jsonl"), "w", encoding="utf-8") as file:
            for number in range(job * RESULTS_OF_A_JOB, (job + 1) * RESULTS_OF_A_JOB):
                file.writelines(json.dumps(entry, separators=(",", ":")) + "\n" for entry in one_result(job, number))
    return path


def one_result(job: int, number: int) -> List[Dict[str, Any]]:
    """What asancol-run leaves of one test, run and process and in some a finding."""
    has = number % ONE_HAS == 0
    host = f"node-{job % 200:03}.farm.example.org"
    run = {"type": "run", "version": 1, "run": 0, "id": f"66117cd4d81b0-{number:x}-{host}",
           "command": ["build/tests/program", f"--case={number % 5000}"], "host": host, "directory": "/home/me/project",
           "time": 1795604716.0 + number, "seconds": 0.204, "status": 0, "signal": 0, "ended": True, "nothing": False,
           "missing": 0, "running": False, "timed_out": False, "lost": 0, "runs": 1, "processes": 1,
           "findings": int(has)}
    process = {**result_process(0, 0), "command": run["command"], "pid": 1000 + number % 30000}
    return [run, process, result_finding(0, 0, number // ONE_HAS % PLACES_OF_A_FARM)] if has else [run, process]


def result_process(run: int, n: int) -> Dict[str, Any]:
    return {"type": "process", "run": run, "n": n, "pid": 5000 + n, "parent": 1, "command": ["./program", str(n)],
            "fate": "closed", "events": 1000 + n, "reports": 1, "whole": True, "left_out": 0, "why": ""}


def result_finding(run: int, n: int, place: int) -> Dict[str, Any]:
    frame = {"offset": "36f1", "module": "/home/me/project/build/program", "build_id": "84bfdc933a95ad93",
             "function": f"use_{place}", "file": "/home/me/project/src/child.c", "line": place + 1, "column": 68,
             "text": "return *p;"}
    return {"type": "finding", "run": run, "fingerprint": f"{place:016x}", "class": "heap-use-after-free",
            "access": "load", "size": 4, "address": "101804010020", "bad": "101804010020", "shadow": "fd", "count": 3,
            "processes": 1, "process": n, "pid": 5000 + n, "event": 3, "stack": [frame],
            "block": {"kind": "heap", "address": "101804010020", "size": 16}, "allocated": [frame], "freed": [frame]}


class Row(NamedTuple):
    name: str
    make: Callable[[str], str]
    argv: List[str]
    bar: float
    most_megabytes: float
    symbolizer: str = ""


ROWS = [
    Row("one report, with symbols", one_report, ["--trace"], 0.15, 100),
    Row("one report, without", one_report, ["--trace"], 0.15, 100, "/proc/none"),
    Row("100,000 lines of one place", one_place, ["--trace"], 1, 100),
    Row("2,000 places, with symbols", many_places, ["--trace"], 1, 100),
    Row("2,000 places, without", many_places, ["--trace"], 1, 100, "/proc/none"),
    Row("a million JSON lines", results, [], 30, 500),
    Row("a million JSON lines, to a file", results, ["--json", "/dev/null"], 30, 500),
    Row("100,000 results of 1,000 jobs", a_farm, [], 10, 500),
    Row("100,000 results, to a page", a_farm, ["--html", "/dev/null"], 10, 500),
    Row("100,000 results, to a file", a_farm, ["--json", "/dev/null"], 10, 500),
    Row("100,000 results, to SARIF", a_farm, ["--sarif", "/dev/null"], 10, 500),
]


def main() -> int:
    is_slow = False
    with tempfile.TemporaryDirectory(prefix="asancol.") as name:
        folder = os.path.realpath(name)
        reports.write_checker(folder)
        for row in ROWS:
            path = row.make(folder)
            runs = [measure(folder, [*row.argv, path], ASANCOL_SYMBOLIZER=row.symbolizer)
                    for _ in range(1 if row.bar > 20 else 3)]
            best = min(runs)
            is_over = best.seconds > row.bar or best.megabytes > row.most_megabytes
            is_slow = is_slow or is_over
            print(f"{row.name:34} {best.seconds:7.3f} s (bar {row.bar} s), user and system "
                  f"{best.processor:7.3f} s, {best.megabytes:4.0f} MB"
                  f"{'  OVER' if is_over else ''}", flush=True)
    return 1 if is_slow else 0


if __name__ == "__main__":
    sys.exit(main())
