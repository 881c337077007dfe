#!/usr/bin/env python3
"""Runs AddressSanitizer's own tests with its runtime, and recorded. Both have to say the same.

usage: recorder/tests/suites.py [--list] [--jobs N] ASANCOL [WORD..]

The tests are those of compiler-rt (by Clang), of GCC, and the unit tests (by both). Their sources come from Debian with
`apt-get source` the first time, 220 MB, into recorder/out/suites; what AddressSanitizer says is kept there, too. A test
is run as its RUN lines or its dg- directives say, with -fsanitize=address, and by asancol-cc under asancol-run. Of each
execution the first report is compared: its class, its line, and the lines where the block was allocated and freed; or
the status if there is no report.

With TARGET=aarch64 in the environment, GCC's tests (at -O0 and -O2) and the unit tests are those of programs for ARM
under qemu-aarch64, by Debian's cross compiler.

The suite `text` looks for what compiler-rt's tests look for with FileCheck, in the text of --log-path.

For each suite it prints how many tests have the same, another class or line, no report, a false one, were left out
since they are outside the claims (tables.py), or are for another system or processor. Each test that is not the same is
named, with the reason if it is known. If more are left out than tables.py allows, that is a failure. The last line is
'N passed, M failed': a known one passes, if it is still so. A word chooses a suite, or tests whose names have it. Allow
it an hour, and more beside other work.
"""

import fnmatch
import os
import subprocess
import sys
from collections import Counter
from concurrent.futures import ThreadPoolExecutor
from typing import Iterable, List, Optional, Sequence, Union

sys.path.insert(0, f"{os.path.dirname(os.path.realpath(__file__))}/../..")  # where `testing` is

from arm import CROSS, MACHINE
from beside import compiler_rt, gcc, text, units
from beside.compare import ELSEWHERE, FALSE, LEFT_OUT, MISSED, NOT_RUN, OTHER, SAME, Job, Outcome, Verdict
from beside.execute import IS_ARM
from beside.fetch import fetch
from beside.programs import OUT, Kept
from beside.tables import KNOWN, MOST_LEFT_OUT, OUTSIDE, Row
from support import Compiler, Failure, compilers
from testing.suite import read, reader_of

SUITES = (compiler_rt, gcc, units, text)
COLUMNS = (SAME, OTHER, MISSED, FALSE, LEFT_OUT, ELSEWHERE)


def row_for(table: Sequence[Row], job: Union[Job, Outcome]) -> Optional[Row]:
    return next((it for it in table if it.suite == job.suite and fnmatch.fnmatchcase(job.name, it.name)), None)


def do(job: Job) -> Outcome:
    outside = row_for(OUTSIDE, job)
    try:
        return Outcome(job.suite, job.name, [Verdict(LEFT_OUT, outside.why)] if outside else job.run())
    except (Failure, OSError, subprocess.SubprocessError) as error:
        return Outcome(job.suite, job.name, [Verdict(OTHER, str(error))])


def is_passed(outcome: Outcome) -> bool:
    """Whether a test has the same, or is known not to have it. It prints the differences."""
    known = row_for(KNOWN, outcome)
    if outcome.kind in (SAME, *NOT_RUN):
        if known:
            print(f"FAILED {outcome.suite} {outcome.name}: is {outcome.kind}, and known not to be the same", flush=True)
        return not known
    for why in outcome.whys():
        print(f"{'known' if known else 'FAILED'} {outcome.suite} {outcome.name}: {why}", flush=True)
    if known:
        print(f"    {known.why}", flush=True)
    return known is not None


def row_of(suite: str, what: str, kinds: Iterable[str]) -> str:
    counts = Counter(kinds)
    return f"{suite:<14}{what:<12}{''.join(f'{counts[it]:>10}' for it in COLUMNS)}"


def print_table(outcomes: Sequence[Outcome]) -> None:
    """How many tests of each suite, and executions, have the same, and why those are left out that are."""
    print(f"{'':<26}{''.join(f'{it:>10}' for it in COLUMNS)}")
    for suite in dict.fromkeys(it.suite for it in outcomes):
        of_suite = [it for it in outcomes if it.suite == suite]
        print(row_of(suite, "tests", (it.kind for it in of_suite)))
        print(row_of("", "executions", (verdict.kind for it in of_suite for verdict in it.verdicts)))
        whys = Counter(it.verdicts[0].why for it in of_suite if it.kind == LEFT_OUT)
        print("".join(f"{count:>10} left out: {why}\n" for why, count in whys.most_common()), end="")


def count_missing(outcomes: Sequence[Outcome], words: Sequence[str]) -> int:
    """Of how many suites that have run whole more tests are left out than may be. It prints which."""
    found = 0
    for suite, most in MOST_LEFT_OUT.items():
        count = sum(it.suite == suite and it.kind == LEFT_OUT for it in outcomes)
        if count > most and not IS_ARM and (not words or suite in words):
            print(f"FAILED {suite}: {count} tests are left out, and at most {most} may be")
            found += 1
    return found


def jobs_for(kept: Kept, argv: Sequence[str]) -> List[Job]:
    there = [Compiler(CROSS, f"{MACHINE}-g++")] if IS_ARM else compilers()
    found = [job for suite in SUITES for job in suite.jobs(kept, there)]
    return [it for it in found if not argv or any(word == it.suite or word in it.name for word in argv)]


def main() -> int:
    reader = reader_of(__doc__)
    reader.add_argument("--jobs", type=int, default=len(os.sched_getaffinity(0)), help="how many tests run at a time")
    reader.add_argument("asancol", metavar="ASANCOL")
    request = read(reader)
    os.environ["ASANCOL"] = os.path.abspath(request.asancol)
    try:
        fetch()
    except (Failure, OSError) as error:
        print(f"no sources: {error}", file=sys.stderr)
        return 1
    kept = Kept(f"{OUT}/kept")
    jobs = jobs_for(kept, request.words)
    if request.list:
        print("\n".join(f"{it.suite} {it.name}" for it in jobs))
        return 0
    outcomes, passed = [], 0
    with ThreadPoolExecutor(request.jobs) as pool:
        for outcome in pool.map(do, jobs):
            outcomes.append(outcome)
            passed += is_passed(outcome)
    print_table(outcomes)
    failed = len(outcomes) - passed + count_missing(outcomes, request.words)
    print(f"{passed} passed, {failed} failed")
    return 0 if outcomes and failed == 0 else 1


if __name__ == "__main__":
    sys.exit(main())
