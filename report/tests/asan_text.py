"""Tests of AddressSanitizer's text, of traces and of results that were read."""

import os
import re

from testing import expect, expect_in, expect_not_in
from testing.programs import call
from testing.reports import one_trace, report, report_test

WANTED = """\
=================================================================
==7==ERROR: AddressSanitizer: heap-buffer-overflow on address 0x000000002005 at pc AT bp AT sp AT
WRITE of size 1 at 0x000000002005 thread T0
    #0 AT in drop program.c:14

0x000000002005 is located 0 bytes after 5-byte region [0x000000002000,0x000000002005)
allocated by thread T0 here:
    #0 AT in malloc (program+AT)
    #1 AT in make program.c:10

SUMMARY: AddressSanitizer: heap-buffer-overflow program.c:14 in drop
=================================================================
==7==ERROR: AddressSanitizer: heap-use-after-free on address 0x000000002000 at pc AT bp AT sp AT
READ of size 4 at 0x000000002000 thread T0
    #0 AT in use program.c:7
    #1 AT in main program.c:18

0x000000002000 is located 0 bytes inside of 16-byte region [0x000000002000,0x000000002010)
freed by thread T0 here:
    #0 AT in free (program+AT)
    #1 AT in drop program.c:14

previously allocated by thread T0 here:
    #0 AT in malloc (program+AT)
    #1 AT in make program.c:10

SUMMARY: AddressSanitizer: heap-use-after-free program.c:7 in use
"""
SUMMARY = "asancol: 4 reports at 2 places; 1 process, 9 events; all complete\n"


def normal(text: str) -> str:
    text = re.sub(r"(program\.c:\d+):\d+", r"\1", re.sub(r"\((?:/\S*/)?(\w+)\+0x[0-9a-f]+\)( \(BuildId: \w+\))?",
                                                         r"(\1+AT)", text))
    return re.sub(r"(#\d+|pc|bp|sp) 0x[0-9a-f]+", r"\1 AT", text)


@report_test
def text_of_traces(folder: str) -> None:
    one_trace(folder)
    ran = report(folder, "--trace", "a.trace", "--source-root", ".", "--format=asan", "--json", "result.jsonl")
    expect((ran.status, ran.err), (1, ""), "status")
    expect(normal(ran.out), WANTED + SUMMARY, "the text")
    again = report(folder, "result.jsonl", "--source-root", ".", "--format=asan")
    expect(normal(again.out), WANTED + SUMMARY, "the text of a result")


@report_test
def without_lines(folder: str) -> None:
    """A frame and the last line have the module, its build id and the function."""
    one_trace(folder)
    call(["strip", "-g", f"{folder}/program"], check=True)
    text = report(folder, "--trace", "a.trace", "--format=asan").out
    module = r"\(\S*/program\+0x[0-9a-f]+\) \(BuildId: [0-9a-f]{40}\)"
    expect(len(re.findall(rf"^    #0 0x[0-9a-f]+ in drop {module}$", text, re.M)), 1, text)
    expect(len(re.findall(rf"^SUMMARY: AddressSanitizer: heap-buffer-overflow {module} in drop$", text, re.M)), 1, text)


@report_test
def files_of_processes(folder: str) -> None:
    """Each process has a file, of a trace and of a result; earlier content is removed."""
    one_trace(folder)
    for words in (("--trace", "a.trace", "--json", "result.jsonl"), ("result.jsonl",)):
        with open(f"{folder}/log.7", "w", encoding="utf-8") as file:
            file.write("before\n")
        ran = report(folder, *words, "--source-root", ".", "--log-path", "log")
        expect_in(ran.out, "ERROR: asancol: heap-use-after-free: load of 4 bytes (3 times, 1 process)")
        with open(f"{folder}/log.7", encoding="utf-8") as file:
            expect(normal(file.read()), WANTED, words[0])


@report_test
def files_of_what_counts(folder: str) -> None:
    """A suppressed report is in no file, and what can't be written is said."""
    one_trace(folder)
    with open(f"{folder}/rules", "w", encoding="utf-8") as file:
        file.write("at:heap-use-after-free:use\n")
    ran = report(folder, "--trace", "a.trace", "--log-path", "log", "--suppressions", "rules")
    expect(ran.status, 1, ran.err)
    with open(f"{folder}/log.7", encoding="utf-8") as file:
        expect_not_in(file.read(), "use-after-free")
    ran = report(folder, "--trace", "a.trace", "--log-path", "missing/log")
    expect((ran.status, "missing/log.7: No such file or directory" in ran.err), (4, True), ran.err)
    expect(os.path.exists(f"{folder}/missing"), False, "a folder")
    expect(report(folder, "--trace", "a.trace", "--format=text").status, 2, "a form that there is not")
