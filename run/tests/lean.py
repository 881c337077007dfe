"""Lean recording, and full: a run has the same reports. If nothing leaves the quarantine, so that there is one segment,
they are the same to the letter, except for the numbers of events and the addresses of blocks. With a small quarantine
lean recording finds no fewer: it hands out no address twice."""

import json
import os
import re
import shutil
from typing import Dict, List, Tuple

from support import CC, REPORT, TOP, Suite, expect, expect_in, expect_ran
from testing.programs import call

RECORDED = f"{TOP}/recorder/tests"
# Programs that go wrong in many ways, and with what words they are run.
SOURCES: Dict[str, List[List[str]]] = {
    "inline/drawn.c": [["1", "30000", "1"], ["2", "30000", "3"]],
    "segments.c": [["early", "2000", "0"], ["variables", "500", "5"], ["poisons", "300", "5"],
                   ["long_ago", "3000", "0"]],
    "lean.c": [["turns", "5"], ["vforks", "5"], ["vfork_frees", "5"]],
    "common_bugs.c": [["sprintf"], ["puts"], ["sscanf"], ["memcmp"]],
}


# With several threads.
THREADS = [["2", "30000", "3"]]
# A line of the shadow, which shows the neighbours of a block: with several threads these depend on the recording.
SHADOW = re.compile(r"^(?:=>| +)0x2[0-9a-f]{11}:.*\n", re.M)


def said_of(suite: Suite, argv: List[str], full: str, quarantine: str = "") -> str:
    """The text of a run, without the numbers of processes and events. Its addresses are the same each time, but
    those of blocks depend on the recording: each has its number in the order of appearance."""
    ran = suite.run("--live=end", "--shadow", "--full-stacks", "--leaks=yes", "--", "setarch", "-R", *argv,
                    ASANCOL_REPORT=REPORT, ASANCOL_QUARANTINE=quarantine, ASANCOL_FULL=full)
    text = re.sub(r"==\d+==|\b(?:process|PID) \d+|\d+ events", "", ran.err)
    if argv[1:] in THREADS:
        text = SHADOW.sub("", text)
    numbers: Dict[str, str] = {}
    text = re.sub(r"\b0x2[0-9a-f]{11}\b", lambda it: numbers.setdefault(it[0], f"block {len(numbers)}"), text)
    return f"{text}\nstatus {ran.status}"


def counts_of(text: str) -> Tuple[int, int]:
    """The status of a run, and how many reports it has."""
    reports, = re.findall(r"asancol: (\d+) reports? ", text)
    status, = re.findall(r"\nstatus (\d+)", text)
    return int(status), int(reports)


def check_same(suite: Suite, folder: str, compiler: str, source: str) -> None:
    program = f"{folder}/program"
    argv = [CC, "-g", "-O1", "-w", "-pthread", f"{RECORDED}/{source}", "-o", program]
    call(argv, check=True, env={**os.environ, "ASANCOL_CC": compiler})
    for arguments in SOURCES[source]:
        full = said_of(suite, [program, *arguments], "1")
        expect_in(full, "ERROR: asancol: ")
        lean = said_of(suite, [program, *arguments], "0")
        for one, other in zip(full.splitlines(), lean.splitlines()):
            expect(other, one, f"{source} {' '.join(arguments)}")
        expect(len(lean), len(full), f"{source} {' '.join(arguments)}: letters")
        found = [said_of(suite, [program, *arguments], full, "10000") for full in ("1", "0")]
        (full_status, full_count), (status, count) = map(counts_of, found)
        expect(status, full_status, f"{source} {' '.join(arguments)}, with a small quarantine: the status")
        expect(count >= full_count, True, f"{source} {' '.join(arguments)}: {count} reports, {full_count} in full")


def check_used_again(suite: Suite, folder: str, compiler: str) -> None:
    """Live blocks keep the pages of freed ones. If these are too many, it is said; by default they are not yet."""
    argv = [CC, "-O1", "-w", "-pthread", f"{RECORDED}/lean.c", "-o", "program"]
    call(argv, cwd=folder, check=True, env={**os.environ, "ASANCOL_CC": compiler})
    line = "./program: reused freed memory after "
    for quarantine, full, has_line in (("1000000", "", True), ("", "", False), ("1000000", "1", False)):
        settings = {"ASANCOL_QUARANTINE": quarantine, "ASANCOL_FULL": full}
        ran = suite.run("--leaks=no", "--json=result", "--", "./program", "scattered", "200000", cwd=folder,
                        ASANCOL_REPORT=REPORT, **settings)
        expect_ran(ran, 0, "asancol: no reports; 1 process, ", "; all complete\n", *[line] * has_line,
                   absent=[line] * (not has_line))
        with open(f"{folder}/result", encoding="utf-8") as file:
            expect("used_again" in json.loads(file.read().splitlines()[1]), has_line, f"the result, with {settings}")
    ran = suite.run("-q", "--leaks=no", "--", "./program", "scattered", "200000", cwd=folder,
                    ASANCOL_QUARANTINE="1000000")
    expect_ran(ran, 0, absent=["asancol"])


def tests(suite: Suite) -> None:
    for compiler in ("gcc", "clang"):
        if shutil.which(compiler):
            suite.test(f"lean: {compiler} used again", check_used_again, compiler)
            for source in SOURCES:
                suite.test(f"lean: {compiler} {source}", check_same, compiler, source)
