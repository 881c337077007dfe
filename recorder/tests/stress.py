#!/usr/bin/env python3
"""Records programs with threads again and again: each run has to end, and to report its planted faults and no others.

usage: recorder/tests/stress.py [--times N] ASANCOL

Each program is built by GCC and by Clang. inline/load.cpp runs N times (100) at -O0 and N times at -O2, and each other
program a tenth of that. Runs stand side by side, one more than there are processors, so that threads are interrupted
where they like it least. After each run its trace has to be closed, and the classes of its reports have to be as many
of each as were planted.

A line for each program says how many runs there were and how many failed. What failed is kept in recorder/out/stress.
The status is 1 if one failed. A thousand times take about a quarter of an hour on two processors.
"""

import argparse
import collections
import os
import shutil
import subprocess
import sys
import tempfile
from concurrent.futures import ThreadPoolExecutor
from typing import Dict, List, NamedTuple, Optional

sys.path.insert(0, f"{os.path.dirname(os.path.realpath(__file__))}/../..")  # where `testing` is

from lives import LIVES
from support import RECORDER, TESTS, Compiler, compilers, environment, run
from testing.lines import lines_of

KEPT = f"{RECORDER}/out/stress"

# A run that takes longer hangs. Nothing is measured by it.
LONGEST = 120


class Case(NamedTuple):
    """A program, how it is built and called, and how many reports a run has: of each class that is named here, and in
    all."""

    source: str
    flags: List[str]
    argv: List[str]
    part: int  # of all times, one in this many
    status: int
    reports: int
    classes: Dict[str, int]

    def __str__(self) -> str:
        return " ".join([os.path.basename(self.source), *self.flags, *self.argv])


# The class of a fault past an array on the stack is what lies behind it, as with AddressSanitizer.
LOAD = {"heap-buffer-overflow": 12, "heap-use-after-free": 6, "double-free": 6}

CASES = [Case("inline/load.cpp", [level], [], 1, 0, 30, LOAD) for level in ("-O0", "-O2")] + [
    Case("inline/threads.cpp", ["-O0"], [], 10, 0, 22, {}),
    Case("inline/handlers.c", ["-O0"], [], 10, 0, 8, {}),
    Case("inline/scopes.c", ["-O0"], [], 10, 0, 6, {}),
]

# Of lives.c: what has threads.
WITH_THREADS = (
    "threads_exchange",
    "many_threads",
    "ends_with_threads",
    "cancels_threads",
    "exits_in_a_thread",
    "handlers_allocate_in_threads",
)
CASES += [Case("lives.c", ["-O1"], [name], 10, LIVES[name][0], len(LIVES[name][2]), {}) for name in WITH_THREADS]


def build(case: Case, compiler: Compiler, folder: str) -> str:
    path = f"{folder}/{os.path.basename(case.source)}.{compiler}{''.join(case.flags)}"
    if not os.path.exists(path):
        make = compiler.cpp if case.source.endswith(".cpp") else compiler.c
        make(folder, [f"{TESTS}/{case.source}"], path, *case.flags, "-w", "-pthread")
    return path


def what_is_wrong(asancol: str, case: Case, program: str, folder: str) -> Optional[str]:
    """Runs a program once."""
    trace = f"{folder}/t.trace"
    argv = [program, *case.argv]
    try:
        ran = subprocess.run(
            argv, env=environment(ASANCOL_TRACE=trace), cwd=folder, capture_output=True, timeout=LONGEST, check=False
        )
    except subprocess.TimeoutExpired:
        return f"more than {LONGEST} seconds"
    if ran.returncode != case.status or ran.stderr:
        return f"status {ran.returncode}: {ran.stderr.decode(errors='replace')[:300]}"
    reports, ends = lines_of(run([asancol, "check", trace], folder).stdout)
    if [it.fate for it in ends] != ["closed"]:
        return ends[0].fate if ends else "no end line"
    counts = collections.Counter(it.class_name for it in reports)
    is_right = len(reports) == case.reports and all(counts[it] == case.classes[it] for it in case.classes)
    return None if is_right else f"{len(reports)} reports: {dict(counts)}"


def run_once(asancol: str, case: Case, program: str) -> Optional[str]:
    """The mistake in a run, whose trace is then kept, or None."""
    folder = tempfile.mkdtemp(prefix="asancol.")
    wrong = what_is_wrong(asancol, case, program, folder)
    if wrong is not None and os.path.exists(f"{folder}/t.trace"):
        kept = f"{KEPT}/{os.path.basename(folder)}.trace"
        shutil.move(f"{folder}/t.trace", kept)
        shutil.copy(program, KEPT)
        wrong += f": {kept}"
    shutil.rmtree(folder, ignore_errors=True)
    return wrong


def main() -> int:
    parser = argparse.ArgumentParser(description="records programs with threads again and again")
    parser.add_argument("--times", type=int, default=100)
    parser.add_argument("asancol")
    options = parser.parse_args()
    asancol = os.path.abspath(options.asancol)
    shutil.rmtree(KEPT, ignore_errors=True)
    os.makedirs(KEPT)
    failed = 0
    with tempfile.TemporaryDirectory(prefix="asancol-stress-") as folder:
        for compiler in compilers():
            for case in CASES:
                if case.source.endswith(".cpp") and not compiler.cxx:
                    continue
                program, times = build(case, compiler, folder), max(1, options.times // case.part)
                with ThreadPoolExecutor(max_workers=len(os.sched_getaffinity(0)) + 1) as pool:
                    seen = list(pool.map(lambda _: run_once(asancol, case, program), range(times)))
                wrong = [it for it in seen if it is not None]
                print(f"{compiler!s:<7}{case!s:<40}{len(seen):6} runs{len(wrong):4} failed", flush=True)
                for it in wrong:
                    print(f"FAILED {case} {compiler}: {it}", flush=True)
                failed += len(wrong)
    return 1 if failed else 0


if __name__ == "__main__":
    sys.exit(main())
