"""What asancol-run and asancol-report read in the lines that asancol prints, written anew, is these lines: of traces
that are drawn, good and damaged, and of each way to end."""

import re
import subprocess
from random import Random
from typing import List, Optional, Sequence

from asancol_report.class_names import OF_ASANCOL
from asancol_report.verdicts import END, REPORT, Line, line_of
from support import TOP, Suite, expect
from testing import draws
from testing.programs import call

# How many batches of traces are drawn, and of how many each. A folder and a name of no file make them 256.
BATCHES, TRACES = 10, 254
# Options that end a process early.
OPTIONS: List[Sequence[str]] = [[], ["--limit", "3"], ["--memory", "1048576"], ["--quarantine", "0"]]
# Ends that need a thread that is refused, and numbers that take long traces.
RARE = ["p0 end not-started", "p0 end unsettled", f"p0 end no-memory checked {2 ** 24} reports {2 ** 24}",
        f"p0 end malformed kind events {2 ** 24} offset {2 ** 64 - 1} reports {2 ** 24}"]
FATES = {"closed", "malformed header", "malformed code", "malformed width", "malformed size", "malformed range",
         "malformed kind", "truncated", "no-close", "read-failed", "too-many", "no-memory", "not-opened", "not-started",
         "unsettled"}

READS_LINES = r"""
#include <inttypes.h>
#include <stdio.h>
#include <string.h>
#include "run/end_line.h"
int main(void)
{
    struct end_line it;
    char line[512];
    while (fgets(line, sizeof line, stdin) != NULL)
        if (end_line_of(line, strlen(line), &it))
            printf("%s,%" PRIu64 ",%" PRIu64 ",%" PRIu64 "\n", it.fate, it.events, it.offset, it.reports);
        else
            puts("");
    return 0;
}
"""


def printed(suite: Suite, folder: str, number: int) -> List[str]:
    """Draws some traces, and returns what asancol prints of them, and of a folder and a name that is no file."""
    random = Random(f"read back {number}")
    names = []
    for at in range(TRACES):
        names.append(f"{folder}/{at}.trace")
        with open(names[-1], "wb") as file:
            file.write(draws.draw(random))
    argv = [suite.asancol, "check", *OPTIONS[number % len(OPTIONS)], *names, folder, f"{folder}/none"]
    lines = call(argv, stdin=subprocess.DEVNULL, stdout=subprocess.PIPE).stdout.decode("ascii").split("\n")
    expect(lines.pop(), "", "what follows the last line")
    return lines


def text_of(process: str, report: Line) -> str:
    size = "" if report.size is None else f" {report.size}"
    bad = "" if report.bad is None else f" bad {report.bad:012x}"
    shadow = report.shadow and f" shadow {report.shadow}"
    return (f"{process} #{report.event} {report.access}{size} at {report.address:012x}{bad} {report.class_name}"
            f"{shadow}")


def check_reports(suite: Suite, folder: str) -> None:
    """Each line is that of a report, and then it is what its report says, or that of an end."""
    seen = set()
    for number in range(BATCHES):
        for line in printed(suite, folder, number):
            report, end = REPORT.fullmatch(line.encode()), END.fullmatch(line.encode())
            expect(bool(report) + bool(end), 1, f"what {line!r} is read as")
            if report:
                found = line_of(report)
                expect(text_of(line.split(" ")[0], found), line, "a report")
                seen.add(found.class_name)
    expect(seen, set(OF_ASANCOL), "classes")


def end_of(read: str) -> Optional[str]:
    """Returns the end line of what the reader printed, or nothing."""
    if not read:
        return None
    fate, events, offset, reports = read.split(",")
    if fate == "no-memory":
        return f"p0 end no-memory checked {events} reports {reports}"
    if fate.startswith("not-") or fate == "unsettled":
        return f"p0 end {fate}"
    return f"p0 end {fate} events {events} offset {offset} reports {reports}"


def check_ends(suite: Suite, folder: str) -> None:
    """asancol-run reads the lines of its own process, p0; and no line of a report as an end."""
    with open(f"{folder}/reads.c", "w", encoding="utf-8") as file:
        file.write(READS_LINES)
    call(["cc", f"-I{TOP}", f"{folder}/reads.c", f"{TOP}/run/end_line.c", "-o", f"{folder}/reads"], check=True)
    drawn = [line for number in range(BATCHES) for line in printed(suite, folder, number)]
    lines = [re.sub(r"^p\d+ ", "p0 ", line) for line in drawn] + RARE
    text = "".join(f"{line}\n" for line in lines)
    ran = call([f"{folder}/reads"], input=text, stdout=subprocess.PIPE, text=True, check=True)
    ends = [end_of(read) for read in ran.stdout.split("\n")[:-1]]
    expect(len(ends), len(lines), "lines read")
    for line, end in zip(lines, ends):
        expect(end, line if line.startswith("p0 end ") else None, f"what {line!r} is read as")
    fates = {read.split(",")[0] for read in ran.stdout.split("\n") if read}
    expect(fates, FATES, "fates")


def tests(suite: Suite) -> None:
    suite.test("read back: reports", check_reports)
    suite.test("read back: ends", check_ends)
