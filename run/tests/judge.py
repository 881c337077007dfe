"""The table by which each process is judged: run/README.md has the same, and each row has a test."""

import importlib
import inspect
import re
import signal
import subprocess
from typing import List, NamedTuple, Sequence

from asancol_report.results import CRASHES
from support import REPORT, TESTS, TOP, Failure, Ran, Suite, expect, expect_ran
from testing.programs import call

ENDED = f"{TESTS}/ended.py"
PAGE = "run/README.md"
ROWS = "run/judgement_rows.h"
# What stands for something in a text.
WORDS = re.compile(r"\b(HOW|MISSING|CHECKER|SIGNAL|EVENTS|LEFT|ALL|FATE|LOST|CAUSE)\b")


class Row(NamedTuple):
    """A row of the table, in the words of the page."""

    fates: str
    endings: str
    holds: str
    lacks: str
    answer: str
    why: str


class End(NamedTuple):
    """What makes a row apply: a peer that ends so, or another test."""

    why: str
    words: str = ""  # of ended.py
    options: Sequence[str] = ()  # of asancol-run
    test: str = ""


GONE = "close=0 ending=0 kill=9"
# For each row, in their order.
ENDS = [
    End("was still running at the end of asancol-run", test="lives.check_orphan_for_too_long"),
    End("was ended by --timeout", test="lives.check_time_limit"),
    End("its checker was ended by CHECKER", test="lives.check_killed_checker"),
    End("its checker printed no verdict, and ended with status CHECKER", test="statuses.check_other_checker"),
    End("died in the recorder, by SIGNAL: a bug in asancol, or a wild store into its memory",
        "close=0 ending=3 signal=11 kill=11 inside=11"),
    End("reached the event limit: LEFT of ALL events were not recorded, since ASANCOL_SEGMENTS is 0",
        test="feeds.check_second_message"),
    End("reached the event limit: LEFT of ALL events were not recorded", "close=0 is_at_limit=1 left_out=3"),
    End("reached the event limit, and was not seen to end", f"{GONE} is_at_limit=1"),
    End("ended in a system call of the recorder, or before an exec, such as by SIGKILL or a system call filter",
        "close=0 ending=0 kill=31 calls=1", test="abrupt.check_forbidden"),
    End("its recorder had no room for LOST of its findings", "findings_lost=2"),
    End("its leaks were not looked for, such as when a thread does not stop", "leaks_missed=1", ["--leaks=yes"],
        test="leaks.check_stuck"),
    End("the data beside its trace are inconsistent, such as after a wild store", "findings=1"),
    End("none of its code was compiled by asancol-cc", f"{GONE} has_checks=0"),
    End("ran another program, by an exec in a library", "close=0 ending=0 exec=1", test="abrupt.check_spawns"),
    End("ran another program, by an exec in a library", "close=0 ending=0 exec=1 has_begun=0"),
    End("ended abruptly, HOW", GONE, test="abrupt.check_exits"),
    End("ended abruptly, HOW, before main", f"{GONE} has_begun=0", test="unheard.check_killed"),
    End("ended abruptly, HOW, before main", "close=0 ending=0 kill=10 has_begun=0", test="unheard.check_constructor"),
    End("its checker had no more memory after EVENTS events", "blocks=200", ["--memory", "1048576"]),
    End("reached the event limit of its checker, after EVENTS events", "events=11", ["--limit", "5"]),
    End("it has closed all its descriptors: MISSING", "close=0 closed_off=1 needed=20", test="closed.check_ways"),
    End("it has closed all its descriptors, and ASANCOL_SEGMENTS is 0", "close=0 ending=4 closed_off=1",
        test="closed.check_one_segment"),
    End("its recording ended early", "close=0 ending=4"),
    End("ended abruptly, HOW: MISSING", f"{GONE} needed=20", test="abrupt.check_burst"),
    End("ended abruptly, such as by SIGKILL, or by an _exit or exec in a library, or still running",
        test="report.trace_of_a_killed_process"),
    End("ended abruptly, HOW: its last events were not seen", f"{GONE} beside=0"),
    End("it ended: MISSING", "noted=1"),
    End("its trace ended as FATE", "close=0 events=20", test="segments.check_incomplete"),
    End("its findings and leaks are unknown, since there are no data beside its trace: CAUSE", "beside=0"),
    End("none of its code was compiled by asancol-cc", "has_checks=0"),
    End("ended by SIGNAL", "close=0 ending=3 signal=11 kill=11", test="whole.check_crash"),
    End("ended by SIGNAL before main", "close=0 ending=3 signal=15 kill=15 has_begun=0 sender=1",
        test="unheard.check_killed"),
    End("ended by SIGNAL before main", "close=0 ending=3 signal=11 kill=11 has_begun=0",
        test="unheard.check_constructor"),
    End("", "", ["--wait", "9"], test="whole.check_report"),
]


def read(path: str) -> str:
    with open(f"{TOP}/{path}", encoding="utf-8") as file:
        return file.read()


def in_words(cell: str) -> str:
    """A cell of the program as the page has it."""
    cell = "" if cell == "0" else cell.lower().replace("any & ~", "all but ").replace(" | ", ", ")
    return cell.replace("_", " ")


def rows_of_program() -> List[Row]:
    table = re.search(r"static const struct row rows\[\] = \{\n(.*?)\n\};", read(ROWS), re.S)
    if table is None:
        raise Failure(f"{ROWS} has no table")
    rows = [Row._make([*map(in_words, cells.split(", ")), why])
            for cells, why in re.findall(r'\{([^"]+),\s*"([^"]*)"\}', table[1])]
    expect(len(rows), table[1].count("{"), "rows that were read")
    return rows


def rows_of_page() -> List[Row]:
    section = read(PAGE).partition("\n## How a process is judged\n")[2].partition("\n## ")[0]
    lines = [line for line in section.split("\n") if line.startswith("| ")]
    cells = [[cell.strip() for cell in line.strip("|").split(" |")] for line in lines]
    return [Row._make([*it[:5], it[5].strip("`")]) for it in cells if len(it) == 6][1:]


def check_page(suite: Suite, folder: str) -> None:
    program, page = rows_of_program(), [row._replace(fates=row.fates.replace("-", " ")) for row in rows_of_page()]
    for one, other in zip(program, page):
        expect(other, one, f"a row of {PAGE}")
    expect(len(page), len(program), f"rows of {PAGE}")


def check_each_has_a_test(suite: Suite, folder: str) -> None:
    expect([end.why for end in ENDS], [row.why for row in rows_of_program()], "the rows that have a test")
    for end in ENDS:
        expect(bool(end.words or end.options or end.test), True, f"a test of {end.why!r}")
        if end.test:
            module, _, name = end.test.partition(".")
            expect(inspect.isfunction(getattr(importlib.import_module(module), name, None)), True, end.test)


# The program of a peer, which nobody knows if nothing stands beside its trace.
NAME = r"(?:ended|python3|\(unknown\))"


def line_of(row: Row) -> str:
    """What asancol-run says of a process, as a pattern."""
    why = WORDS.sub(".+", re.escape(row.why))
    if row.answer == "up to there":
        return f"{NAME}: {why}: seen up to there\n"
    if row.answer == "complete":
        return f"{NAME}: complete{': ' if why else ''}{why}, 11 events, 0 reports\n"
    return f"{NAME}: INCOMPLETE: {why}\n"


def check_all_inputs(suite: Suite, folder: str) -> None:
    """The table is what crates/asan_judgement says of all inputs: tests/decisions.py sees to that."""
    sources = [f"{TESTS}/judged.c", f"{TOP}/run/status.c"]
    call(["cc", "-O2", f"-iquote{TOP}", *sources, "-o", f"{folder}/judged"], check=True)
    ran = call([f"{folder}/judged"], stdout=subprocess.PIPE, text=True, check=True)
    for one, other in zip(ran.stdout.splitlines(), read("run/tests/judged.txt").splitlines()):
        expect(one, other, "a line of run/tests/judged.txt")
    expect(ran.stdout, read("run/tests/judged.txt"), "run/tests/judged.txt")


def check_end(suite: Suite, folder: str, row: Row, end: End) -> None:
    ran = suite.run("-v", *end.options, "--", ENDED, *end.words.split(), ASANCOL_REPORT=REPORT)
    kill = int((re.findall(r"kill=(\d+)", end.words) or ["0"])[0])
    expect(re.search(line_of(row), ran.err) is not None, True, f"{row}: {ran.err}")
    expect(ran.status, -kill if row.answer in ("complete", "up to there") else 98, f"status of {row}")


def text_of(ran: Ran) -> str:
    """The messages, without numbers and names of processes, and without that there was no report."""
    return re.sub(rf"process \d+ (\./)?{NAME}:", "process:", re.sub(r"^asancol-run: .*\n", "", ran.err, flags=re.M))


def check_one_text(suite: Suite, folder: str, end: End) -> None:
    """asancol-report says of a run what asancol-run says of it without one, and again of its result. It alone has a
    line to quote a crash by."""
    words = [*end.options, "--", ENDED, *end.words.split()]
    alone = suite.run(*words, ASANCOL_REPORT="/bin/false")
    both = suite.run("--json", f"{folder}/x", *words, ASANCOL_REPORT=REPORT)
    said, quoted, _ = text_of(both).partition("SUMMARY: asancol: ")
    expect(said, text_of(alone), f"the text of {end.words}")
    expect(bool(quoted), " crashed\n" in said, f"the last line of {end.words}")
    merged = suite.run_argv([REPORT, f"{folder}/x"])
    expect(merged.out, both.err, f"the text of the result of {end.words}")


def check_late_death(suite: Suite, folder: str) -> None:
    """A process may still run a little when its connection has ended."""
    for status, words, text in (
        (98, f"{GONE} beside=0", "ended abruptly, by SIGKILL: "),
        (-signal.SIGTERM, "close=0 ending=3 signal=15 kill=15 has_begun=0 sender=1", "ended by SIGTERM before main: "),
    ):
        expect_ran(suite.run("-v", "--", ENDED, "late=1", *words.split(), ASANCOL_REPORT=REPORT), status, text)


def check_crashes(suite: Suite, folder: str) -> None:
    """What counts as a crash stands in C and in Python."""
    numbers = re.findall(r"number == (SIG\w+)", read("common/crash.h"))
    expect(numbers, [signal.Signals(it).name for it in CRASHES], "signals of crashes")


# What a checker prints last, and the fate, the events, the offset and the reports of it; or nothing, if it is no such
# line.
LINES = {
    "p0 end closed events 9 offset 99 reports 1\n": "closed 9 99 1",
    "p0 #1 store 1 at 1 x\np0 end malformed code events 10 offset 2 reports 0\n": "malformed code 10 2 0",
    "p0 end no-memory checked 7 reports 3\n": "no-memory 7 0 3",
    "p0 end not-started\n": "not-started 0 0 0",
    "p0 end closed events 9 offset 99 reports 1": "none",
    "p0 end closed events 9 offset 99 reports\n": "none",
    "p0 end closed events 9 offset 99 reports 1 \n": "none",
    "p0 end closed events 9 offset reports 1\n": "none",
    "p0 end events 9 offset 99 reports 1\n": "none",
    "p0 end 9\n": "none",
    "p0 end " + "x" * 40 + "\n": "none",
    "p1 end closed events 9 offset 99 reports 1\n": "none",
    "\n": "none",
    "": "none",
}

READS_LINES = r"""
#include <inttypes.h>
#include <stdio.h>
#include "run/end_line.h"
int main(void)
{
    struct end_line it;
    if (!end_line_find(0, &it))
        return puts("none") < 0;
    printf("%s %" PRIu64 " %" PRIu64 " %" PRIu64 "\n", it.fate, it.events, it.offset, it.reports);
    return 0;
}
"""


def check_end_lines(suite: Suite, folder: str) -> None:
    with open(f"{folder}/reads.c", "w", encoding="utf-8") as file:
        file.write(READS_LINES)
    argv = ["cc", f"-I{TOP}", f"{folder}/reads.c", f"{TOP}/run/end_line.c", "-o", f"{folder}/reads"]
    call(argv, check=True)
    for text, wanted in LINES.items():
        with open(f"{folder}/lines", "w", encoding="utf-8") as file:
            file.write(text)
        with open(f"{folder}/lines", encoding="utf-8") as file:
            ran = call([f"{folder}/reads"], stdin=file, stdout=subprocess.PIPE, text=True, check=True)
        expect(ran.stdout, wanted + "\n", repr(text))


def check_files(suite: Suite, folder: str) -> None:
    """asancol-run --files is for asancol-report alone."""
    expect_ran(suite.run("--files", "1:x.trace"), 125, "standard output is not a socket")
    expect_ran(suite.run("--files"), 125, "no command was given")
    expect_ran(suite.run("--fil"), 125, "unknown option --fil", absent=["--files"])


def tests(suite: Suite) -> None:
    suite.test("judge: files", check_files)
    suite.test("judge: the page", check_page)
    suite.test("judge: each row has a test", check_each_has_a_test)
    suite.test("judge: all inputs", check_all_inputs)
    suite.test("judge: a late death", check_late_death)
    suite.test("judge: crashes", check_crashes)
    suite.test("judge: end lines", check_end_lines)
    for row, end in zip(rows_of_program(), ENDS):
        if end.words or end.options:
            suite.test(f"judge: {end.words or 'whole'}", check_end, row, end)
            suite.test(f"judge: one text: {end.words or 'whole'}", check_one_text, end)
