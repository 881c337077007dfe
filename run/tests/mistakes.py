"""Findings of the recorder, from the program to the status of asancol-run."""

import json
import os

from support import CC, REPORT, Ran, Suite, expect, expect_ran
from testing.programs import call

MISTAKES = r"""
#include <malloc.h>
#include <signal.h>
#include <stdio.h>
#include <stdlib.h>
#include <string.h>
#include <sys/wait.h>
#include <unistd.h>
static char letters[64] = "abcdefghijklmnopqrstuvwxyz";
static void *volatile kept;
__attribute__((noinline)) void overlap(volatile unsigned long size) { memcpy(letters + 2, letters, size); }
int main(int count, char **argv) {
    int times = count > 2 ? atoi(argv[2]) : 1;
    for (int i = 0; i < times; i++) overlap(10);
    if (strcmp(argv[1], "fork") == 0 && fork() == 0) overlap(20);
    if (strcmp(argv[1], "exec") == 0) execl(argv[0], argv[0], "once", (char *)0);
    for (int i = 0; strcmp(argv[1], "segments") == 0 && i < 3000; i++) {
        free(malloc(10));
        if (i == 2000) overlap(10);
    }
    if (strcmp(argv[1], "bad") == 0) *((volatile char *)malloc(8) + 8) = 1;
    if (strcmp(argv[1], "crash") == 0) raise(11);
    if (strcmp(argv[1], "killed") == 0) raise(9);
    while (wait(NULL) > 0)
        ;
    return 0;
}
"""


def built(folder: str) -> str:
    program = f"{folder}/mistakes"
    with open(f"{program}.c", "w", encoding="utf-8") as file:
        file.write(MISTAKES)
    call([CC, "-g", "-fno-builtin", f"{program}.c", "-o", program], check=True)
    return program


def run_real(suite: Suite, *argv: str, **settings: str) -> Ran:
    return suite.run(*argv, ASANCOL_REPORT=REPORT, **settings)


TITLE = "ERROR: asancol: memcpy-param-overlap: memory ranges [0x"


def check_each_end(suite: Suite, folder: str) -> None:
    """However the process ends, the findings are there, and its status."""
    program = built(folder)
    for argv, texts in (
        (["once"], ["1 report at 1 place; 1 process", "all complete"]),
        (["once", "3"], [": 3 times, 1 process\n", "3 reports at 1 place;"]),
        (["fork"], ["2 reports at 1 place; 2 processes"]),
        (["exec"], [": 2 times, 2 processes\n", "2 processes"]),
        (["bad"], ["heap-buffer-overflow: store of 1 byte\n", "2 reports at 2 places;"]),
        (["crash"], ["1 report at 1 place;", "1 crashed"]),
        (["killed"], ["1 report at 1 place;", "1 ended abruptly"]),
    ):
        expect_ran(run_real(suite, "--leaks=no", "--", program, *argv), 99, TITLE, "in overlap ", *texts)
    expect_ran(run_real(suite, "--exitcode", "7", "-q", "--", program, "once"), 7, TITLE)
    ran = run_real(suite, "--live=exit", "--", program, "once")
    expect_ran(ran, 99, TITLE, "SUMMARY: asancol: memcpy-param-overlap ")


def check_segments(suite: Suite, folder: str) -> None:
    ran = run_real(suite, "--json", f"{folder}/a.jsonl", "--", built(folder), "segments", ASANCOL_LIMIT="1000",
                   ASANCOL_FULL="1")
    expect_ran(ran, 99, "2 reports at 1 place; 1 process", "all complete")
    with open(f"{folder}/a.jsonl", encoding="utf-8") as file:
        lines = [json.loads(line) for line in file]
    process, = (it for it in lines if it["type"] == "process")
    expect((process["segments"] > 1, process["findings"], process["reports"]), (True, 2, 0), "the process")


def check_without_report(suite: Suite, folder: str) -> None:
    """If asancol-report can't run, the status and the summary say all the same that there is something."""
    ran = suite.run("--", built(folder), "once", ASANCOL_REPORT=f"{folder}/missing")
    expect_ran(ran, 99, "and 1 by the recorder, which asancol-report --trace shows",
               "asancol: 1 report in 1 process (1 by the recorder); 1 process")


def check_rules(suite: Suite, folder: str) -> None:
    program = built(folder)
    ran = run_real(suite, "--gen-suppressions", "--json", f"{folder}/a.jsonl", "--", program, "once")
    line = next(it for it in ran.err.splitlines() if "suppression:" in it)
    with open(f"{folder}/rules", "w", encoding="utf-8") as file:
        file.write(line + "\n")
    expect_ran(run_real(suite, "--suppressions", f"{folder}/rules", "--", program, "once"), 0,
               "no reports, 1 suppressed")
    expect_ran(run_real(suite, "--baseline", f"{folder}/a.jsonl", "--", program, "once"), 0,
               "no reports, 1 place known from the baseline")


def check_traces(suite: Suite, folder: str) -> None:
    """Of a trace in a file it stands beside that, and asancol-report reads it there."""
    program = built(folder)
    ran = suite.run_argv([program, "once"], ASANCOL_TRACE=f"{folder}/a.trace", ASANCOL_WHERE="1")
    expect((ran.status, ran.err), (0, ""), "the program")
    ran = suite.run_argv([REPORT, "--trace", f"{folder}/a.trace"])
    expect((ran.status, TITLE in ran.out), (1, True), ran.out)
    ran = run_real(suite, "--keep", f"{folder}/kept", "--", program, "once")
    kept = [it for it in os.listdir(f"{folder}/kept") if it.endswith(".trace")]
    expect((ran.status, len(kept)), (99, 1), "traces that are kept")


def tests(suite: Suite) -> None:
    suite.test("mistakes: however it ends", check_each_end)
    suite.test("mistakes: segments", check_segments)
    suite.test("mistakes: without asancol-report", check_without_report)
    suite.test("mistakes: suppressions and baseline", check_rules)
    suite.test("mistakes: traces", check_traces)
