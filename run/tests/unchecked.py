"""The verdict lists unchecked code: in the summary, in the status if that is asked for, and in each output."""

import json
import os

from support import CC, REPORT, RUN, Suite, expect, expect_in, expect_not_in, expect_ran
from testing.programs import CXX, NO_SETTINGS, call

MAIN = """
#include <stdlib.h>
int helper(char *);
int main(void) { char *p = malloc(8); int result = helper(p); free(p); return result; }
"""
# Two libraries of the system, and none of them is of C or C++ itself.
LIBRARIES = ["-Wl,--no-as-needed", "-lresolv", "-lanl"]
TWO = "not checked: 2 libraries of the system"
HELPER = """
#ifndef BYTE
#define BYTE 8
#endif
int helper(char *p) { ((volatile char *)p)[BYTE] = 1; return 0; }
"""


def build(folder: str, compiler: str) -> None:
    """./bad has a report, ./some has an object compiled otherwise, ./more has six; ./static; and two with
    libraries of the system."""
    environment = {**os.environ, "ASANCOL_CC": compiler}

    def make(command: str, *words: str) -> None:
        call([command, *words], cwd=folder, check=True, env=environment)

    for name, text in (("main", MAIN), ("helper", HELPER), *((f"n{i}", f"int n{i}[4] = {{1}};\n") for i in range(6))):
        with open(f"{folder}/{name}.c", "w", encoding="utf-8") as file:
            file.write(text)
    make(CC, "-g", "-c", "main.c", "helper.c")
    make(CC, "main.o", "helper.o", "-o", "bad")
    make(compiler, "-c", "helper.c", "-o", "u.o")
    make(CC, "main.o", "u.o", "-o", "some")
    make(CC, "-static", "main.o", "helper.o", "-o", "static")
    make(CC, "-DBYTE=7", "main.c", "helper.c", *LIBRARIES, "-o", "libraries")
    make(CC, "main.o", "u.o", *LIBRARIES, "-o", "some-libraries")
    make(compiler, "-c", *(f"n{i}.c" for i in range(6)))
    make(CC, "main.o", "u.o", *(f"n{i}.o" for i in range(6)), "-o", "more")


def check_summary(suite: Suite, folder: str, compiler: str) -> None:
    build(folder, compiler)
    for argv, status, text in (
        (["./some"], 0, " events; not checked: u.o\n"),
        (["--unchecked", "list", "./some"], 0, "; not checked: u.o\n"),
        (["--unchecked=no", "./some"], 0, " events\n"),
        (["--unchecked=error", "./some"], 98, "; not checked: u.o\n"),
        (["--unchecked=error", "./some"], 98, "asancol: INCOMPLETE: code was not checked, and --unchecked=error was "),
        (["--unchecked=error", "--incomplete-exitcode=7", "./some"], 7, "; not checked: u.o\n"),
        (["-q", "./some"], 0, "; not checked: u.o\n"),
        (["./more"], 0, "; not checked: n0.o, n1.o, n2.o, n3.o, n4.o and 2 more\n"),
        (["-v", "./more"], 0, "asancol: not checked: n5.o\nasancol: not checked: u.o\n"),
        (["-v", "./some-libraries"], 0, "asancol: library of the system, not checked: libanl.so.1\n"
                                        "asancol: library of the system, not checked: libresolv.so.2\n"),
        (["./some-libraries"], 0, "; not checked: u.o, and 2 libraries of the system\n"),
        (["--unchecked=no", "./some-libraries"], 0, " events\n"),
        (["sh", "-c", "./some; ./more; ./some; exec ./some"], 0, " events; not checked: n0.o, n1.o"),
        (["./bad"], 99, " events; all complete\n"),
        (["--unchecked=error", "./bad"], 99, " events; all complete\n"),
        (["./libraries"], 0, f" events; all complete; {TWO}\n"),
        (["--unchecked=error", "./libraries"], 0, f" events; all complete; {TWO}\n"),
        (["--unchecked=no", "./libraries"], 0, " events; all complete\n"),
        (["sh", "-c", "./libraries; exec ./libraries"], 0, f" events; all complete; {TWO}\n"),
        (["--unchecked=error", "sh", "-c", "./bad; ./some"], 99, "; not checked: u.o\n"),
        (["./static"], 99, "; not checked: calls to the C library (-static)\n"),
    ):
        absent = [] if "all complete" in text else ["all complete"]
        for reporter in (NO_SETTINGS, {"ASANCOL_REPORT": REPORT}):
            if status == 99 and not reporter:
                continue
            expect_ran(suite.run(*argv, cwd=folder, **reporter), status, text, absent=absent)
    for quiet in (["--unchecked=no", "./some"], ["./libraries"]):
        expect_ran(suite.run("-q", *quiet, cwd=folder), 0, absent=["asancol"])


def check_outputs(suite: Suite, folder: str, compiler: str) -> None:
    """It is in the JSON lines and their merged results, in SARIF and in the page; and a run inside another has it."""
    build(folder, compiler)
    outputs = [f"--{kind}={kind}" for kind in ("json", "sarif", "html")]
    ran = suite.run(*outputs, "--", "./some", cwd=folder, ASANCOL_REPORT=REPORT)
    expect_ran(ran, 0, "; not checked: u.o\n")
    with open(f"{folder}/json", encoding="utf-8") as file:
        entry = json.loads(file.readline())
    names = (entry["unchecked"], entry["unchecked_more"], "system" in entry)
    expect(names, (["u.o"], 0, False), "JSON lines")
    for kind in ("sarif", "html"):
        with open(f"{folder}/{kind}", encoding="utf-8") as file:
            expect_in(file.read(), "not checked: u.o")
    for argv, status, text in (((), 0, "; not checked: u.o\n"), (["--unchecked=error"], 3, "; not checked: u.o\n"),
                                (["--unchecked=no"], 0, " events\n"), (["-q"], 0, "; not checked: u.o\n")):
        ran = suite.run_argv([REPORT, *argv, "json"], cwd=folder)
        expect((ran.status, text in ran.out), (status, True), ran.out + ran.err)
    ran = suite.run(RUN, "./more", cwd=folder, ASANCOL_REPORT=REPORT)
    expect_ran(ran, 0, "not checked: n0.o, n1.o")
    expect(ran.err.count("; not checked: n0.o, n1.o"), 2, ran.err)
    suite.run_argv(["./some"], cwd=folder, ASANCOL_TRACE="t.trace", ASANCOL_WHERE="1", ASANCOL_LEAKS="1")
    ran = suite.run_argv([REPORT, "--trace", "t.trace"], cwd=folder)
    expect_in(ran.out, "; not checked: u.o\n")
    expect_not_in(ran.out, "all complete")


CXX_MAIN = """
#include <iostream>
int main() { std::cout << "done" << std::endl; }
"""


def check_libraries(suite: Suite, folder: str, compiler: str) -> None:
    """Libraries of the system are counted, each once, by asancol-run and asancol-report; those of C and C++ are not.
    And whose calls were not checked is said if it was so."""
    build(folder, compiler)
    argv = ["./libraries"]
    for name in ("one", "other"):
        suite.run(f"--json={name}", "--", *argv, cwd=folder, ASANCOL_REPORT=REPORT)
    ran = suite.run_argv([REPORT, "one", "other", "--json=both"], cwd=folder)
    expect_in(ran.out, f"; all complete; {TWO}\n")
    expect_in(suite.run_argv([REPORT, "both"], cwd=folder).out, f"; all complete; {TWO}\n")
    suite.run_argv(argv, cwd=folder, ASANCOL_TRACE="t.trace", ASANCOL_WHERE="1")
    no_leaks = "leaks (ASANCOL_LEAKS is not 1)"
    expect_in(suite.run_argv([REPORT, "--trace", "t.trace"], cwd=folder).out,
              f"; not checked: {no_leaks}, and 2 libraries of the system\n")
    expect(suite.run_argv([REPORT, "--unchecked=error", "--trace", "t.trace"], cwd=folder).status, 3, no_leaks)
    suite.run_argv(argv, cwd=folder, ASANCOL_TRACE="l.trace", ASANCOL_WHERE="1", ASANCOL_LEAKS="1")
    for words in (["--trace", "l.trace"], ["--leaks=no", "--trace", "t.trace"]):
        expect_in(suite.run_argv([REPORT, *words], cwd=folder).out, f"; all complete; {TWO}\n")
    with open(f"{folder}/plus.cpp", "w", encoding="utf-8") as file:
        file.write(CXX_MAIN)
    cxx = {"gcc": "g++", "clang": "clang++"}[compiler]
    for argv in (["plus"], ["plus-static", "-static"]):
        call([CXX, "plus.cpp", "-o", *argv], cwd=folder, check=True, env={**os.environ, "ASANCOL_CXX": cxx})
    calls, static = "calls by libraries (ASANCOL_LIBRARIES=0)", "; not checked: calls to the C library (-static)\n"
    for program, status, on, off in (
        ("./bad", 99, "; all complete\n", "; all complete\n"),
        ("./plus", 0, "; all complete\n", f" events; not checked: {calls}\n"),
        ("./plus-static", 0, static, static),
        ("./libraries", 0, f"; all complete; {TWO}\n",
         f" events; not checked: {calls}, and 2 libraries of the system\n"),
    ):
        for settings, wanted in ((NO_SETTINGS, on), ({"ASANCOL_LIBRARIES": "0"}, off)):
            for options in ((), ["--json=x"]):  # asancol-run says it, or asancol-report
                ran = suite.run(*options, "--", program, cwd=folder, ASANCOL_REPORT=REPORT, **settings)
                expect_ran(ran, status, wanted)
    expect_ran(suite.run("--unchecked=error", "./plus", cwd=folder, ASANCOL_LIBRARIES="0"), 98, calls)


def tests(suite: Suite) -> None:
    for compiler in ("gcc", "clang"):
        suite.test(f"unchecked: summary, {compiler}", check_summary, compiler)
        suite.test(f"unchecked: libraries, {compiler}", check_libraries, compiler)
        suite.test(f"unchecked: outputs, {compiler}", check_outputs, compiler)
