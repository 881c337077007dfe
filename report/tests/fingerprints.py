"""Tests of fingerprints: what they tell apart, and what they stay the same for."""

import json
import os
from typing import Dict

from asancol_report.findings import first_own
from testing import expect, expect_in, reports
from testing.reports import build, report, report_test, write_trace
from testing.side import fault, of_program

# An inlined function in a header of the system, as memcpy is with _FORTIFY_SOURCE.
HEADER = """
static inline __attribute__((always_inline)) void copy(const char *name) {
    here(name);
}
"""
PLACES = """
#include "usr/include/bits/copy.h"
__attribute__((noinline)) void first(void) {
    copy("copy-in-first");
    __asm__ volatile("");
}
__attribute__((noinline)) void second(void) {
    copy("copy-in-second");
    __asm__ volatile("");
}
static char name[] = "same-1";
static inline __attribute__((always_inline)) void put(void) {
    here(name);
}
__attribute__((noinline)) void twice(void) {
    here(name);
    name[5]++;
    here(name);
    name[5]++;
}
__attribute__((noinline)) void others(void) {
    put();
    name[5]++;
    put();
    name[5]++;
    here(name);
    __asm__ volatile("");
}
"""
NAMES = ["copy-in-first", "copy-in-second", "same-1", "same-2", "same-3", "same-4", "same-5"]
SOURCE = reports.PLACES_C.replace("int main(void) {", PLACES + "int main(void) { first(); second(); twice(); others();")
END = "p0 end closed events 9 offset 99 reports 9\n"

Prints = Dict[str, str]


def write_program(folder: str, source: str = SOURCE) -> None:
    """Writes a trace of a program with an event at each place. The event's address says which."""
    os.makedirs(f"{folder}/usr/include/bits", exist_ok=True)
    with open(f"{folder}/usr/include/bits/copy.h", "w", encoding="utf-8") as file:
        file.write(HEADER)
    program = build(folder, "program", source)
    numbers = range(1, len(NAMES) + 1)
    parts = of_program(program, [fault(program.places[name], 0x2000, 1) for name in NAMES], list(numbers))
    lines = [f"p0 #{n} store 1 at 00000000200{n} bad 00000000200{n} heap-buffer-overflow shadow 05\n" for n in numbers]
    write_trace(folder, "a.trace", "".join(lines) + END, parts)
    reports.write_checker(folder)


def prints_of(folder: str, *argv: str, **settings: str) -> Prints:
    """Returns the fingerprint of each place of the program."""
    ran = report(folder, "--trace", "a.trace", "--json", "-", *argv, **settings)
    entries = [json.loads(line) for line in ran.out.splitlines()]
    return {NAMES[int(entry["address"], 16) - 0x2001]: entry["fingerprint"]
            for entry in entries if entry["type"] == "finding"}


def made_in(folder: str, source: str = SOURCE) -> Prints:
    os.makedirs(folder)
    write_program(folder, source)
    return prints_of(folder)


@report_test
def fingerprints_tell_places_apart(folder: str) -> None:
    """Callers of an inlined function, and identical lines."""
    write_program(folder)
    prints = prints_of(folder)
    expect(sorted(prints), sorted(NAMES), "places")
    expect(len(set(prints.values())), len(NAMES), "fingerprints")
    expect_in(report(folder, "--trace", "a.trace").out, f"7 reports at {len(NAMES)} places")
    report(folder, "--trace", "a.trace", "--json", "a.jsonl")
    with open(f"{folder}/a.jsonl", encoding="utf-8") as file:
        lines = file.readlines()
    with open(f"{folder}/one.jsonl", "w", encoding="utf-8") as file:
        file.writelines(line for line in lines if '"function":"second"' not in line)
    ran = report(folder, "--trace", "a.trace", "--baseline", "one.jsonl")
    expect(ran.status, 1, "another caller is new")
    expect_in(ran.out, "in second ", f"1 report at 1 place, {len(NAMES) - 1} places known")


@report_test
def fingerprints_stay(folder: str) -> None:
    """If lines move, functions come before, and the sources lie elsewhere; with each symbolizer."""
    one = made_in(f"{folder}/one/src")
    before = "\n\n__attribute__((noinline)) void before(void) {\n    here(name);\n    copy(name);\n}\n"
    moved = SOURCE.replace("__attribute__((noinline)) void twice", before + "__attribute__((noinline)) void twice")
    expect(made_in(f"{folder}/two/src", moved), one, "after lines have moved")
    expect(prints_of(f"{folder}/one/src", ASANCOL_SYMBOLIZER="addr2line"), one, "with addr2line")
    blanks = SOURCE.replace("    here(name);", "\there( name );".replace("( name )", "(name)"))
    expect(made_in(f"{folder}/three/src", blanks), one, "after blanks have changed")


@report_test
def fingerprints_have_the_folder(folder: str) -> None:
    one, other = made_in(f"{folder}/a"), made_in(f"{folder}/b")
    expect(set(one.values()) & set(other.values()), set(), "in two folders")
    deep = made_in(f"{folder}/x/lib/src"), made_in(f"{folder}/y/lib/src")
    expect(deep[0], deep[1], "two copies of the same folders")
    rooted = [prints_of(f"{folder}/{name}/lib/src", "--source-root", f"{folder}/{name}") for name in ("x", "y")]
    expect(rooted[0], rooted[1], "two copies, from their roots")
    tops = [prints_of(f"{folder}/{name}", "--source-root", ".") for name in ("a", "b")]
    expect(tops[0], tops[1], "files at the top of their roots")
    expect(rooted[0] == tops[0], False, "another folder below the root")


@report_test
def reports_stand_at_own_lines(folder: str) -> None:
    """The place of a report is no header of the system, though its frames show that."""
    write_program(folder)
    ran = report(folder, "--trace", "a.trace", "--source-root", ".", "--codequality", "out.json", "--json", "a.jsonl")
    expect_in(ran.out, "in copy usr/include/bits/copy.h:3")
    with open(f"{folder}/out.json", encoding="utf-8") as file:
        expect({entry["location"]["path"] for entry in json.load(file)}, {"program.c"}, "places")
    again = report(folder, "a.jsonl", "--json", "b.jsonl")
    expect((again.status, again.out), (1, ran.out), "read again")
    with open(f"{folder}/a.jsonl", "rb") as one, open(f"{folder}/b.jsonl", "rb") as other:
        expect(one.read(), other.read(), "both files")


@report_test
def places_of_stacks(folder: str) -> None:
    """Which frame stands for a place: a library that has called the program, or that of a language, only if none
    else is."""
    header, libc, library = "/usr/include/c++/12/bits/x.h", "/usr/lib/x86_64-linux-gnu/libc.so.6", "/usr/lib/libours.so"
    start, own = ("libc_start_call_main.h", 58, libc), ("main.c", 4, "/home/me/program")
    stripped, inlined = ("", 0, "/home/me/program"), (header, 9, "/home/me/program")
    for stack, wanted in (
        ([own, start], (0, 4)),
        ([inlined, own, start], (1, 4)),
        ([inlined, start], (0, 9)),
        ([stripped, start], (0, 0)),
        ([stripped, own, start], (1, 4)),
        ([stripped, inlined, start], (1, 9)),
        ([("streambuf.cc", 3, "/usr/lib/libstdc++.so.6"), own, start], (1, 4)),
        ([("ours.c", 7, library), own, start], (0, 7)),
        ([stripped, ("ours.c", 7, library), start], (0, 0)),
        ([start], (0, 58)),
        ((), (0, 0)),
    ):
        expect(first_own((*frame, False) for frame in stack), wanted, str(stack))
    expect(first_own([(*start, False), (*stripped, True), (*own, False)]), (1, 0), "compiled without lines")
