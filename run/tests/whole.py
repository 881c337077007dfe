"""All parts together: the recorder, asancol-run, asancol and the real asancol-report."""

import json
import os
import re
import shutil
import subprocess
import sys
from typing import Any, Dict, List, Tuple

from leaks import make
from lives import at_terminal
from support import (
    CC, REPORT, RUN, TOP, Failure, Ran, Suite, environment, expect, expect_in, expect_ran, write_text,
)
from testing.classes import THE_SAME, table_of_classes
from testing.programs import call
from testing.reports import FORMS

PAST = "heap-buffer-overflow: store of 1 byte"
CRASHED = "ended by SIGSEGV, by a store at address 0x10"
FREED = "heap-use-after-free: load of 1 byte"


def run_real(suite: Suite, *argv: str, **settings: str) -> Ran:
    return suite.run(*argv, ASANCOL_REPORT=REPORT, **settings)


def read(path: str) -> str:
    with open(path, encoding="utf-8") as file:
        return file.read()


def read_lines(path: str) -> List[Any]:
    with open(path, encoding="utf-8") as lines:
        return [json.loads(line) for line in lines]


def check_report(suite: Suite, folder: str) -> None:
    ran = run_real(suite, "--", suite.program, "past", "3")
    texts = (PAST, "in store_past", "programs.c:", "0 bytes past the end of a block of 8 bytes", "allocated at")
    expect_ran(ran, 99, *texts, "asancol: 3 reports at 1 place; 1 process, 5 events; all complete")
    ran = run_real(suite, "--", suite.program, "child")
    expect_ran(ran, 99, FREED, "in load_freed", "freed at", "2 processes")


VARIABLES = """
#include <string.h>
static int table[4];
__attribute__((noinline)) void fill(int size) {
    char buffer[10];
    memset(buffer, 1, size);
    __asm__ volatile("" : : "r"(buffer) : "memory");
}
int main(int count, char **argv) {
    const char *volatile literal = "Alice";
    fill(10 + count);
    table[3 + count] = argv != 0;
    return table[0] + literal[6 + count] - literal[6 + count];
}
"""


def check_variables(suite: Suite, folder: str) -> None:
    """By both compilers a report has the name of the variable, and where it is declared, except a literal by GCC."""
    with open(f"{folder}/variables.c", "w", encoding="utf-8") as file:
        file.write(VARIABLES)
    for compiler in filter(shutil.which, ("gcc", "clang")):
        argv = [CC, "-g", "variables.c", "-o", compiler]
        call(argv, cwd=folder, check=True, env={**os.environ, "ASANCOL_CC": compiler})
        ran = run_real(suite, "--json", f"{folder}/x", "--", f"{folder}/{compiler}")
        expect_ran(ran, 99, " in fill ",
                   " 0 bytes past the end of 'buffer' (10 bytes) on the stack, declared in line 5",
                   " 0 bytes past the end of 'table' (16 bytes), a global variable, declared at variables.c:3\n",
                   " 1 byte past the end of '<string literal>' (6 bytes), a global variable")
        blocks = [it["block"] for it in read_lines(f"{folder}/x") if it["type"] == "finding"]
        expect(sorted((it["kind"], it["name"], it["line"]) for it in blocks if it["size"] != 6),
               [("global", "table", 3), ("stack", "buffer", 5)], "blocks")


# Each function has one fault. What stands behind it is its class, and the last what came of the first.
FAULTS = """
#include <alloca.h>
#include <stdlib.h>
#include <string.h>
#define APART __attribute__((noinline)) static
void __asan_poison_memory_region(void const volatile *, size_t), __asan_poison_intra_object_redzone(void *, size_t);
void __sanitizer_annotate_contiguous_container(const void *, const void *, const void *, const void *);
#define CONTAINER __sanitizer_annotate_contiguous_container
static int table[4];
static char of_container[16];
APART void ended(void) { volatile int *kept; { volatile int x = 3; kept = &x; } *kept = 4; } // stack-use-after-scope
APART void past(int n) { volatile char room[16]; room[n] = 1; } // stack-buffer-overflow
APART void before(int n) { volatile char room[16]; room[-n] = 1; } // stack-buffer-underflow
APART void dynamic(int n) { volatile char *room = alloca(n); room[n] = 1; } // dynamic-stack-buffer-overflow
APART void global(int n) { table[n] = 1; } // global-buffer-overflow
APART void heap(int n) { char *room = malloc(n); room[n] = 1; free(room); } // heap-buffer-overflow
APART void freed(char *room) { free(room); room[1] = 1; } // heap-use-after-free
APART void twice(char *room) { free(room); free(room); } // double-free
APART void wild(void) { int x[4]; int *volatile at = x; free(at); } // bad-free
APART void poisoned(char *p) { __asan_poison_memory_region(p, 8); p[7] = 1; free(p); } // use-after-poison
APART void unused(char *p) { CONTAINER(p, p + 16, p + 16, p + 2); p[2] = 1; } // container-overflow
APART void apart(char *p) { CONTAINER(p, p + 16, p + 16, p + 2); p[8] = 1; } // container-overflow
APART void between(char *p) { __asan_poison_intra_object_redzone(p, 8); p[1] = 1; free(p); } // intra-object-overflow
int main(int count, char **argv) {
    (void)argv; char *first = malloc(8);
    ended(); past(15 + count); before(count); dynamic(9 + count); global(3 + count); heap(4 + count);
    freed(first); twice(malloc(9)); wild();
    poisoned(malloc(8)); unused(malloc(16)); apart(of_container); between(malloc(8));
    first[2] = 1; // also at
    return 0;
}
"""
# What report/tests/classes.py shows: a call of such a size ends the process.
SHOWN_ELSEWHERE = {"negative-size-param"}
ATTEMPTS = {"double-free": "attempting double-free", "bad-free": "attempting free on address which was not malloc()-ed"}


def check_names(suite: Suite, folder: str) -> None:
    """By both compilers a report has the name that AddressSanitizer gives it, its line with a caret, and comes in
    order."""
    with open(f"{folder}/faults.c", "w", encoding="utf-8") as file:
        file.write(FAULTS)
    lines = FAULTS.splitlines()
    wanted = [(it.partition("// ")[2], str(at)) for at, it in enumerate(lines, 1) if it.startswith("APART")]
    for compiler in filter(shutil.which, ("gcc", "clang")):
        argv = [CC, "-g", "-w", "faults.c", "-o", compiler + "-faults"]
        call(argv, cwd=folder, check=True, env={**os.environ, "ASANCOL_CC": compiler})
        argv = ["--live=end", "--source-root", folder, "--shadow", "--leaks=no", "--", f"{folder}/{compiler}-faults"]
        ran = run_real(suite, "--json", f"{folder}/x", *argv)
        found = re.findall(r"ERROR: asancol: (.*?)(?:: .*)?\n    #0 .* faults\.c:(\d+):\d+\n", ran.err)
        expect(found, [(ATTEMPTS.get(name, name), line) for name, line in wanted], ran.err)
        names = {name for name, said in table_of_classes().items() if said == THE_SAME} - SHOWN_ELSEWHERE
        expect({name for name, _ in wanted} - {"bad-free"}, names, "classes that RECORDER.md calls the same")
        also = next(at for at, it in enumerate(lines, 1) if "also at" in it)
        shown = lines[int(wanted[0][1]) - 1].split("{", 1)[1].split("//")[0].strip()
        expect_ran(ran, 99, shown, "\n  also at faults.c:%d:" % also,
                   " in main: store of 1 byte, byte 2 of the block\n",
                   "Shadow byte legend", "reports at 14 places; 1 process")
        expect(re.fullmatch(rf"SUMMARY: asancol: {wanted[0][0]} faults\.c:{wanted[0][1]}:\d+ in ended",
                            ran.err.splitlines()[-1]) is not None, True, ran.err)
        again = suite.run_argv([REPORT, f"{folder}/x", "--source-root", folder, "--shadow"])
        expect(again.out, ran.err, "read again")


CONTAINERS = """
#include <algorithm>
#include <string>
#include <utility>
#include <vector>
typedef std::pair<std::string, std::vector<std::vector<std::string> > > Named;
static int *gone;
static bool comes_first(const Named &one, const Named &other) { return one.first.size() + *gone < other.first.size(); }
int main(int count, char **argv) {
    std::vector<Named> named(3, Named(argv[0], {}));
    gone = new int(count);
    delete gone;
    std::sort(named.begin(), named.end(), comes_first);
    return 0;
}
"""


def check_short_stacks(suite: Suite, folder: str) -> None:
    """Frames of std:: are one line, and names fit on one."""
    with open(f"{folder}/named.cpp", "w", encoding="utf-8") as file:
        file.write(CONTAINERS)
    for compiler in filter(shutil.which, ("g++", "clang++")):
        argv = [os.path.join(os.path.dirname(CC), "asancol-c++"), "-g", "-w", "named.cpp", "-o", compiler + "-named"]
        call(argv, cwd=folder, check=True, env={**os.environ, "ASANCOL_CXX": compiler})
        ran = run_real(suite, "--", f"{folder}/{compiler}-named")
        stack = re.findall(r"^    (?:#\d+ 0x\w+ |\.\. \d+ )(.*)", ran.err.partition("is byte 0")[0], re.M)
        expect([it.partition("(")[0].partition(" /")[0] for it in stack],
               ["in comes_first", "frames of std::", "in main"], ran.err)
        expect(max(map(len, stack)) < 150 + len(folder), True, ran.err)
        ran = run_real(suite, "--full-stacks", "--", f"{folder}/{compiler}-named")
        expect_ran(ran, 99, "in void std::sort<", absent=("frames of",))


def check_lowered(suite: Suite, folder: str) -> None:
    """That a process has lowered a bound is in the text and in the result, which can be merged."""
    line = f"ASANCOL_QUARANTINE=7 {suite.program} past; ASANCOL_HALT=1 {suite.program} past; {RUN} -q -- " \
           f"env ASANCOL_QUARANTINE=5 {suite.program} sound"
    ran = run_real(suite, "--full", "--json", f"{folder}/x", "--", "sh", "-c", line)
    texts = [f"{suite.program}: held back {count} bytes of freed memory (ASANCOL_QUARANTINE)" for count in (7, 5)]
    texts += [f"{suite.program}: ended at its first fault (ASANCOL_HALT), so later errors were not seen"]
    expect_ran(ran, 99, "asancol: process ", *texts)
    notes = [it["text"] for it in read_lines(f"{folder}/x") if it["type"] == "note"]
    expect([sum(text in it for it in notes) for text in texts], [1, 1, 1], "notes")
    merged = suite.run_argv([REPORT, f"{folder}/x"])
    expect([text in merged.out for text in texts], [True] * 3, merged.out)


def check_colors(suite: Suite, folder: str) -> None:
    """Colors go to a terminal only, and not if somebody asks for none."""
    red = "\033[1;31m=="
    argv, report = ["--", suite.program, "past"], {"ASANCOL_REPORT": REPORT}
    result = f"{folder}/result.jsonl"
    for name, command in (("asancol-run", [RUN]), ("asancol-report", [REPORT])):
        rest = argv if command == [RUN] else [result]
        if command == [REPORT]:
            suite.run("--json", result, *argv, **report)
        ran = at_terminal(suite, [*command, *rest], b"", 0.1, NO_COLOR="", **report)
        expect(red in ran.err, True, f"{name}: colors")
        for settings in ({"NO_COLOR": "1"}, {"TERM": "dumb"}):
            ran = at_terminal(suite, [*command, *rest], b"", 0.1, **{**report, **settings})
            expect((PAST in ran.err, "\033" in ran.err), (True, False), f"{name}, {settings}: no colors")
        ran = at_terminal(suite, [*command, "--color", "never", *rest], b"", 0.1, **report)
        expect((PAST in ran.err, "\033" in ran.err), (True, False), f"{name}: never")
        for when, has_colors in (("auto", False), ("always", True)):
            ran = suite.run_argv([*command, "--color", when, *rest], **report)
            expect(red in ran.out + ran.err, has_colors, f"{name}, no terminal: {when}")
    log = f"{folder}/log"
    at_terminal(suite, [RUN, "--log-file", log, *argv], b"", 0.1, **report)
    with open(log, encoding="utf-8") as lines:
        text = lines.read()
    expect((PAST in text, "\033" in text), (True, False), "a log file has no colors")


def check_forms(suite: Suite, folder: str) -> None:
    """Lines as GCC's and annotations stand for reports, halts and incomplete runs, also without a report."""
    past = r"programs\.c:\d+:\d+: error: heap-buffer-overflow: store of 1 byte in store_past"
    all_settings: Tuple[Dict[str, str], ...] = ({}, {"ASANCOL_HALT": "1"})
    for settings in all_settings:
        ran = suite.run_argv([RUN, "--format=gcc", "--", suite.program, "past"], ASANCOL_REPORT=REPORT, **settings)
        expect((ran.status, len(re.findall(past, ran.err))), (99, 1), ran.err)
        ran = suite.run_argv([RUN, "--format=github", "--", suite.program, "past"], ASANCOL_REPORT=REPORT, **settings)
        expect((ran.status, len(re.findall("^::error .*title=heap-buffer-overflow in store_past::", ran.err, re.M))),
               (99, 1), ran.err)
        expect("AddressSanitizer" in ran.err, False, ran.err)
    ran = suite.run_argv([RUN, "--format=github", "--", "true"], ASANCOL_REPORT=REPORT)
    expect_ran(ran, 98, "::error title=incomplete::asancol: NOTHING WAS RECORDED")


def check_job(suite: Suite, folder: str) -> None:
    """In a job of GitHub's, annotations have paths from the checkout, wherever the tests run, and the page of the job
    keeps its text."""
    for name in ("project", "build"):
        os.mkdir(f"{folder}/{name}")
    write_text(f"{folder}/project/a.c", "int main(int count, char **argv) { char text[4]; text[3 + count] = 0; "
                                        "return 0; }\n")
    write_text(f"{folder}/page", "before\n")
    call([CC, "-g", "-w", "../project/a.c", "-o", "a"], cwd=f"{folder}/build", check=True)
    ran = suite.run_argv([RUN, "--format=github", "--markdown", f"{folder}/page", "--", "./a"], cwd=f"{folder}/build",
                         ASANCOL_REPORT=REPORT, GITHUB_WORKSPACE=f"{folder}/project",
                         GITHUB_STEP_SUMMARY=f"{folder}/page")
    expect_ran(ran, 99, "::error file=a.c,line=1,")
    with open(f"{folder}/page", encoding="utf-8") as file:
        text = file.read()
    expect((text.startswith("before\n"), "stack-buffer-overflow" in text), (True, True), text)


def check_summaries_are_the_same(suite: Suite, folder: str) -> None:
    """asancol-run and asancol-report say the same of a run without reports."""
    for argv in (
        ["--", "true"],
        ["--", suite.program, "sound"],
        ["--at-least", "2", "--", suite.program, "sound"],
        ["--", suite.program, "kills_itself", "9"],
        ["--", suite.unchecked, "sound"],
        ["--", "sh", "-c", f"{suite.program} crashes; {suite.unchecked} sound; true"],
        ["--crashes", "--", "sh", "-c", f"{suite.program} crashes; {suite.unchecked} sound; true"],
        ["--timeout", "0.5", "--", suite.program, "sleeps", "30"],
    ):
        alone = run_real(suite, *argv)
        both = run_real(suite, "--json", f"{folder}/x", *argv)
        # Numbers of processes and names of sockets differ. What a killed process had not sent yet is not seen: that is
        # up to some milliseconds of events.
        differs = r"process \d+|asancol-\w{6}/hub-\w+"
        if "kills_itself" in argv:
            differs += r"|\d+ events?"
        seen = [re.sub(differs, "", ran.err) for ran in (alone, both)]
        expect((both.status, seen[1]), (alone.status, seen[0]), str(argv))
        merged = suite.run_argv([REPORT, f"{folder}/x", *(["--crashes"] * ("--crashes" in argv))])
        expect([it for it in merged.out.splitlines() if it not in both.err], [], f"what the result of {argv} adds")


def check_suppressed(suite: Suite, folder: str) -> None:
    with open(f"{folder}/known", "w", encoding="utf-8") as file:
        file.write("heap-buffer-overflow:store_past\n")
    line = f"{suite.program} past; exit 5"
    expect_ran(run_real(suite, "--suppressions", f"{folder}/known", "--", "sh", "-c", line), 5, "1 suppressed")
    expect_ran(run_real(suite, "--suppressions", f"{folder}/known", "--", suite.program, "child"), 99, FREED)
    with open(f"{folder}/wrong", "w", encoding="utf-8") as file:
        file.write("# a comment\nheap-buffer-overflw:main\n")
    ran = run_real(suite, "--suppressions", f"{folder}/wrong", "--", "touch", f"{folder}/ran")
    expect_ran(ran, 125, "wrong:2: heap-buffer-overflw:main: there is no class heap-buffer-overflw; did you mean "
               "heap-buffer-overflow?\n")
    expect(os.path.exists(f"{folder}/ran"), False, "the command runs")


def check_baseline(suite: Suite, folder: str) -> None:
    run_real(suite, "--json", f"{folder}/known", "--", suite.program, "past")
    expect_ran(run_real(suite, "--baseline", f"{folder}/known", "--", suite.program, "past"), 0)
    expect_ran(run_real(suite, "--baseline", f"{folder}/known", "--", suite.program, "child"), 99, FREED)


def check_outputs(suite: Suite, folder: str) -> None:
    argv: List[str] = []
    for form in FORMS:
        argv += [f"--{form}", f"{folder}/{form}"]
    expect_ran(run_real(suite, *argv, "--", suite.program, "past"), 99, PAST)
    expect(sorted(os.listdir(folder)), sorted(FORMS), "files")
    kinds = [it["type"] for it in read_lines(f"{folder}/json")]
    expect(kinds, ["run", "process", "finding"], "JSON lines")
    expect_ran(run_real(suite, "--html", "/dev/full", "--", suite.program, "past"), 99, PAST)
    expect_ran(run_real(suite, "--html", "/dev/full", "--", suite.program, "sound"), 98)
    expect(run_real(suite, "--log-file", "/dev/full", "--", suite.program, "past").status, 99, "full log")


def check_outputs_to_descriptors(suite: Suite, folder: str) -> None:
    """Earlier output to a descriptor stays, and later output follows."""
    run = f"{RUN} --json NAME --log-file /dev/null -- {suite.program} past"
    for redirected, number, name in (
        (">> log", 1, "/dev/stdout"), ("2> log", 2, "/dev/stderr"), ("7> log", 7, "/dev/fd/7")
    ):
        line = f"{{ echo before >&{number}; {run.replace('NAME', name)}; echo after >&{number}; }} {redirected}"
        suite.run_argv(["sh", "-c", line], folder, ASANCOL_REPORT=REPORT)
        with open(f"{folder}/log", encoding="utf-8") as log:
            lines = log.read().split("\n")
        kinds = [json.loads(it)["type"] if it.startswith("{") else it for it in lines]
        expect(kinds, ["before", "run", "process", "finding", "after", ""], name)
        os.unlink(f"{folder}/log")
    line = f"echo before; {RUN} --log-file /dev/stdout -- {suite.program} past"
    out = suite.run_argv(["sh", "-c", f"({line}) > log; cat log"], folder, ASANCOL_REPORT=REPORT).out
    expect((out.startswith("before\n"), PAST in out), (True, True), out)


REMOVED = {
    "library.c": """
#include <stdlib.h>
void of_library(void) {
    char *volatile p = malloc(5);
    p[5] = 1; }
""",
    "program.c": """
#include <stdlib.h>
void of_library(void);
int main(void) {
    of_library();
    char *volatile p = malloc(6);
    p[6] = 1;
    return 0; }
""",
}


def check_removed(suite: Suite, folder: str, compiler: str) -> None:
    """A program and its shared object have their lines if they are gone, or others, at once after the process. With a
    build id and without one."""
    for name, text in REMOVED.items():
        with open(f"{folder}/{name}", "w", encoding="utf-8") as file:
            file.write(text)
    removed = "rm program library.so"
    renewed = "cp program.c new; mv new program; cp program.c new; mv new library.so"
    for build_id, after in (("sha1", removed), ("sha1", renewed), ("none", removed), ("none", renewed)):
        argv = [CC, "-g", f"-Wl,--build-id={build_id}"]
        for more in (["-shared", "-fPIC", "library.c", "-o", "library.so"],
                     ["program.c", "./library.so", f"-Wl,-rpath,{folder}", "-o", "program"]):
            call([*argv, *more], cwd=folder, check=True, env={**os.environ, "ASANCOL_CC": compiler})
        ran = suite.run("--", "sh", "-c", f"./program; {after}", cwd=folder, ASANCOL_REPORT=REPORT)
        expect_ran(ran, 99, "in of_library library.c:5:", "in main program.c:5:", "in main program.c:7:",
                   absent=["no lines"])


def check_bare(suite: Suite, folder: str, compiler: str) -> None:
    """Why places have no lines is said once for each program, also beside one that has them; and where /proc is not."""
    source = f"{TOP}/examples/bug.c"
    for name, argv in (("lines", ["-g"]), ("plain", ()), ("stripped", ["-g", "-s"])):
        call([CC, *argv, source, "-o", f"{folder}/{name}"], check=True,
             env={**os.environ, "ASANCOL_CC": compiler})
    line = "; ".join(f"{folder}/{name} A" for name in ("lines", "plain", "plain", "stripped"))
    ran = run_real(suite, "--json", f"{folder}/x", "--", "sh", "-c", line)
    why = "has no lines: compile it with -g, and do not strip it"
    expect_ran(ran, 99, "bug.c:11", *(f"asancol: {folder}/{name} {why}\n" for name in ("plain", "stripped")))
    expect([it["text"] for it in read_lines(f"{folder}/x") if it["type"] == "note"],
           [f"{folder}/{name} {why}" for name in ("plain", "stripped")], "notes of the result")
    alone = run_real(suite, "--", f"{folder}/stripped", "A")
    expect("compile" in alone.err or "compiled with -g?" in alone.err, True, alone.err)
    expect_ran(run_real(suite, "--", f"{folder}/lines", "A"), 99, absent=["-g"])
    if suite.run_argv(["unshare", "-rm", "true"]).status == 0:
        hidden = ["unshare", "-rm", "sh", "-c", f"mount -t tmpfs none /proc; exec {folder}/lines A"]
        expect_ran(run_real(suite, "--", *hidden), 99, "the modules of a process are not known, as where /proc is not")


USES_UP = """
#include <stdlib.h>
int f(int n) { char *volatile p = malloc(n % 100 + 1); int r = n ? f(n + 1) + 1 : 0; free(p); return r; }
int main(void) { return f(1); }
"""


def check_folded(suite: Suite, folder: str, compiler: str) -> None:
    """Frames of the recorder are one line, also without lines of its own, as where it is installed, and without names
    either."""
    with open(f"{folder}/up.c", "w", encoding="utf-8") as file:
        file.write(USES_UP)
    call([CC, "-g", "-O1", "up.c", "-o", "up"], cwd=folder, check=True, env={**os.environ, "ASANCOL_CC": compiler})
    for words in ("", "--strip-debug", "--strip-all"):
        if words:
            call(["strip", words, "up"], cwd=folder, check=True)
        ran = run_real(suite, "--", f"{folder}/up")
        expect_ran(ran, -11, "since its stack is used up\n    .. ", " frames of the recorder\n    #",
                   absent=["recorder/", "all.o", "<recorder>"])


def check_many_removed(suite: Suite, folder: str) -> None:
    """Of many programs that are removed, with few descriptors, each is complete. Lines may be missing, with a
    word."""
    shutil.copy(suite.program, f"{folder}/program")
    line = f"ulimit -n 64; exec {RUN} -- sh -c 'for i in $(seq 30); do cp program p$i; ./p$i past; rm p$i; done'"
    ran = suite.run_argv(["sh", "-c", line], folder, ASANCOL_REPORT=REPORT)
    expect_ran(ran, 99, "30 processes", "all complete", "in store_past")


def check_nested(suite: Suite, folder: str) -> None:
    first, second = (f"{RUN} -q -- {suite.program} {way}" for way in ("past", "sound"))
    line = f"{first} 2> {folder}/inner; {second}; {suite.program} child"
    ran = run_real(suite, "--json", f"{folder}/x", "--", "sh", "-c", line)
    expect_ran(ran, 99, PAST, FREED, "4 processes in 3 runs")
    with open(f"{folder}/inner", encoding="utf-8") as inner:
        expect(PAST in inner.read(), True, "the inner run")
    expect_ran(run_real(suite, "-q", "--", RUN, "-q", "--", suite.program, "sound"), 0, absent=["asancol"])
    expect_ran(run_real(suite, "--", RUN, "-q", "--", "true"), 98)
    expect_ran(run_real(suite, "--", "sh", "-c", f"{RUN} -q -- {suite.program} past 2>/dev/null; true"), 99, PAST)


def check_nested_options(suite: Suite, folder: str) -> None:
    """What the outer run was told of leaks, mismatches and suppressions holds for runs inside it; their own words
    win."""
    program, inner = make(folder, "gcc"), f"{RUN} -q"
    with open(f"{folder}/known", "w", encoding="utf-8") as file:
        file.write("leak:^lose$\nheap-buffer-overflow:*\n")
    for outer, middle, status, texts in (
        ("--wait=5", "--", 99, ["Direct leak of 300 byte(s)"]),
        ("--leaks=summary", "--", 0, ["leaks: 300 bytes in 3 blocks", "--leaks=yes shows them"]),
        ("--leaks=yes", "--", 99, ["Direct leak of 300 byte(s)", "asancol: 1 report at 1 place;"]),
        ("--leaks=yes", f"-- {inner} --", 99, ["Direct leak of 300 byte(s)"]),
        ("--leaks=yes", "-- env -i", 99, ["Direct leak of 300 byte(s)"]),
        ("--leaks=yes", "--leaks=no --", 0, ["no reports; "]),
        ("--no-mismatches", "--leaks=yes --", 99, ["Direct leak of 300 byte(s)"]),
    ):
        tools = f"ASANCOL={suite.asancol} ASANCOL_REPORT={REPORT} PATH={os.environ['PATH']}"
        line = f"env -i {tools} {inner} -- {program}" if "-i" in middle else f"{inner} {middle} {program}"
        expect_ran(run_real(suite, outer, "--", "sh", "-c", line), status, *texts)
    line = f"{inner} -- {program} && ! {inner} --leaks=no -- {suite.program} past 2> {folder}/err || exit 0; exit 5"
    ran = run_real(suite, "--leaks=yes", "--suppressions", f"{folder}/known", "--", "sh", "-c", line)
    expect_ran(ran, 0, "asancol: no reports, 2 suppressed; 2 processes in 3 runs", absent=["matched nothing"])


def check_folder_removed(suite: Suite, folder: str) -> None:
    """A test that clears the folder for what passes loses no report."""
    line = f'rm -rf "$TMPDIR"/*; exec {suite.program} past'
    expect_ran(run_real(suite, "--", "sh", "-c", line, TMPDIR=folder), 99, PAST, "1 INCOMPLETE")


def check_bad_rules(suite: Suite, folder: str) -> None:
    """A bad baseline is named also if there is no report, and so are suppressions that can be read only once."""
    path = f"{folder}/rules"
    write_text(path, "nonsense\n")
    expect_ran(run_real(suite, "--baseline", path, "--", suite.program, "sound"), 98, f"{path}:1: ", "not used")
    ran = suite.run_argv(["bash", "-c", f"{RUN} --suppressions <(cat {path}) -- {suite.program} sound"],
                         ASANCOL_REPORT=REPORT)
    expect_ran(ran, 98, ":1: nonsense: not CLASS:PATTERN", "not used")


def check_crash(suite: Suite, folder: str) -> None:
    """Where a process crashed is shown, also with --quiet. It is no report."""
    line = f"{suite.program} crashes || true"
    ran = run_real(suite, "--crashes", "--json", f"{folder}/x", "--", "sh", "-c", line)
    expect_ran(ran, 0, f"{suite.program}: {CRASHED}\n    #0 0x", "in crashes", "no reports;",
               "1 process, 2 events; all complete, 1 crashed\n")
    crashed = [it for it in read_lines(f"{folder}/x") if it["type"] == "process"]
    process = crashed[0]
    expect((process["signal"], process["address"], process["stack"][0]["function"]), (11, "10", "crashes"),
           "JSON lines")
    merged = suite.run_argv([REPORT, "--crashes", f"{folder}/x"])
    expect((merged.status, CRASHED in merged.out), (0, True), merged.out)
    expect_ran(run_real(suite, "-q", "--crashes", "--", "sh", "-c", line), 0, f"{suite.program}: {CRASHED}")
    expect_ran(run_real(suite, "-q", "--", "sh", "-c", f"{line}; exit 3"), 3, f"{suite.program}: {CRASHED}")
    check_crash_in_outputs(suite, folder, line)
    # The same line also if nobody can print where it was; and one for all that have the same.
    line = f"for i in 1 2 3 4; do {suite.program} crashes; done; true"
    for quiet in (["--crashes"], ["--crashes", "-q"]):
        ran = run_real(suite, *quiet, "--", "sh", "-c", line)
        expect_ran(ran, 0, "asancol: 4 processes (", f", ..) {suite.program}: {CRASHED}")
        expect(ran.err.count("SIGSEGV, by a store at"), 1, "lines of crashes")
        ran = suite.run(*quiet, "--", "sh", "-c", line, ASANCOL_REPORT="/bin/false")
        expect_ran(ran, 98, "asancol: 4 processes (", f", ..) {suite.program}: ended by SIGSEGV")


AWAITED = "asancol: 2 processes whose parents waited for them crashed or halted; --crashes shows them\n"


def check_awaited(suite: Suite, folder: str) -> None:
    """What a parent has waited for is a line, if the command ended well: with and without asancol-report, from its
    result, and with a report of the same process. With --quiet it is none."""
    line = f"{suite.program} crashes; {suite.program} crashes"
    outputs = [word for name in ("json", "junit", "codequality") for word in (f"--{name}", f"{folder}/{name}")]
    ran = run_real(suite, *outputs, "--", "sh", "-c", f"{line}; true")
    expect_ran(ran, 0, "asancol: no reports; 2 processes, 4 events; all complete\n" + AWAITED,
               absent=["ended by SIGSEGV", "SUMMARY"])
    said = ran.err.replace("Segmentation fault\n", "")  # the shell's
    expect(suite.run_argv([REPORT, f"{folder}/json"]).out, said, "the text of the result")
    shown = suite.run_argv([REPORT, "--crashes", f"{folder}/json"]).out
    expect_in(shown, CRASHED, "all complete, 2 crashed\nSUMMARY: ")
    marks = [it.get("awaited") for it in read_lines(f"{folder}/json") if it["type"] == "process"]
    expect(marks, [True] * 2, "JSON lines")
    expect(("<failure" in read(f"{folder}/junit"), read(f"{folder}/codequality")), (False, "[]\n"), "other outputs")
    alone = suite.run("--", "sh", "-c", f"{line}; true", ASANCOL_REPORT="/bin/false")
    expect_ran(alone, 98, AWAITED, absent=["ended by SIGSEGV"])
    expect_ran(run_real(suite, "-q", "--", "sh", "-c", f"{line}; true"), 0, absent=["asancol"])
    # The parent was recorded too, and says how its child has ended.
    by_recorded = run_real(suite, "--", suite.program, "aborts")
    expect_ran(by_recorded, 0, "1 process whose parent waited for it crashed or halted", absent=["SUMMARY"])
    # The command's own, one that nobody has waited for, and those of a command that has failed.
    expect_ran(run_real(suite, "--", suite.program, "crashes"), -11, CRASHED, absent=["waited for"])
    left = f"sh -c '{suite.program} crashes & exec true'; sleep 0.2"
    expect_ran(run_real(suite, "--", "sh", "-c", left), 0, CRASHED, absent=["waited for"])
    expect_ran(run_real(suite, "--", "sh", "-c", f"{line}; exit 1"), 1, CRASHED, absent=["waited for"])
    ignores = ("import os, signal, sys, time; signal.signal(signal.SIGCHLD, signal.SIG_IGN); "
               "os.fork() or os.execv(sys.argv[1], [*sys.argv[1:], 'crashes']); time.sleep(0.3)")
    expect_ran(run_real(suite, "--", sys.executable, "-c", ignores, suite.program), 0, CRASHED, absent=["waited for"])


def check_crash_in_outputs(suite: Suite, folder: str, line: str) -> None:
    """It has a place in each, and no line if it is suppressed. The status is the command's."""
    outputs = [word for name in ("junit", "sarif", "codequality", "html") for word in (f"--{name}", f"{folder}/{name}")]
    outputs.append("--crashes")
    expect_ran(run_real(suite, *outputs, "--gen-suppressions", "--", "sh", "-c", line), 0,
               "  suppression: at:SEGV:crashes@")
    for name, text in (("junit", 'type="SEGV"'), ("sarif", '"ruleId": "SEGV"'), ("codequality", '"check_name": "SEGV"'),
                       ("html", "SEGV")):
        expect(text in read(f"{folder}/{name}"), True, name)
    with open(f"{folder}/rules", "w", encoding="utf-8") as file:
        file.write("at:SEGV:crashes\n")
    ran = run_real(suite, "--suppressions", f"{folder}/rules", *outputs, "--", "sh", "-c", line)
    expect_ran(ran, 0, "all complete, 1 crash suppressed", absent=["ended by SIGSEGV"])
    expect("<failure" in read(f"{folder}/junit"), False, "JUnit of a crash that is suppressed")
    ran = run_real(suite, "-q", "--suppressions", f"{folder}/rules", "--", "sh", "-c", line)
    expect_ran(ran, 0, absent=["asancol:"])


def check_kept(suite: Suite, folder: str) -> None:
    """The same report can be made again from the traces."""
    run_real(suite, "--keep", f"{folder}/kept", "--", suite.program, "past", "3")
    traces = [f"{folder}/kept/{it}" for it in os.listdir(f"{folder}/kept") if it.endswith(".trace")]
    ran = suite.run_argv([REPORT, "--trace", *traces])
    expect((ran.status, [it in ran.out for it in (PAST, "in store_past", "3 times")]), (1, [True] * 3), ran.out)


def check_killed_in_a_file(suite: Suite, folder: str) -> None:
    """A trace in a file whose process was killed reads as such, and not as a damaged one."""
    why = "INCOMPLETE: ended abruptly, such as by SIGKILL, or by an _exit or exec in a library, or still running\n"
    for where in ("0", "1"):
        trace = f"{folder}/{where}.trace"
        suite.run_argv([suite.program, "kills_itself", "9"], ASANCOL_TRACE=trace, ASANCOL_WHERE=where)
        ran = suite.run_argv([REPORT, "--trace", trace])
        expect((ran.status, why in ran.out), (3, True), ran.out)


def check_without_quarantine(suite: Suite, folder: str) -> None:
    """A trace is checked with as much held as its process has held, also if that is nothing."""
    trace = f"{folder}/t.trace"
    suite.run_argv([suite.program, "many", "9"], ASANCOL_TRACE=trace, ASANCOL_WHERE="1", ASANCOL_QUARANTINE="0")
    ran = suite.run_argv([REPORT, "--trace", trace])
    expect((ran.status, "held back 0 bytes of freed memory (ASANCOL_QUARANTINE)" in ran.out), (0, True), ran.out)
    ran = suite.run_argv([REPORT, "--quarantine", str(1 << 28), "--trace", trace])
    expect((ran.status, "bad-malloc" in ran.out), (1, True), ran.out)


def check_file_instead(suite: Suite, folder: str) -> None:
    line = f"rm $ASANCOL_HUB; exec unshare -rn {suite.program} past"
    expect_ran(run_real(suite, "--", "sh", "-c", line), 99, PAST, "in store_past", "allocated at")


def check_live(suite: Suite, folder: str) -> None:
    """With --live a report comes while the command runs."""
    started = suite.start("--live=exit", "--", "sh", "-c", f"{suite.program} past; sleep 30", ASANCOL_REPORT=REPORT)
    line = started.stderr.readline() if started.stderr else ""
    started.terminate()
    started.communicate()
    if PAST not in line:
        raise Failure(f"saw {line!r}")


def check_without_python(suite: Suite, folder: str) -> None:
    """With a damaged installation the lines of the checker are printed."""
    broken = f"{folder}/asancol-report"
    shutil.copy(REPORT, broken)
    ran = suite.run("--", suite.program, "past", "30", ASANCOL_REPORT=broken)
    expect_ran(ran, 99, "p0 #3 store 1 at ", "and 10 more lines")


def check_many(suite: Suite, folder: str) -> None:
    """More processes with reports than descriptors, and all are reported."""
    line = f"i=0; while [ $i -lt 100 ]; do {suite.program} past & i=$((i+1)); done; wait"
    argv = ["sh", "-c", f"ulimit -n 64; exec {RUN} -- sh -c '{line}'"]
    ran = suite.run_argv(argv, ASANCOL_REPORT=REPORT)
    expect_ran(ran, 99, "asancol: 100 reports at 1 place; 100 processes, 300 events; all complete")


def check_first_steps(suite: Suite, folder: str) -> None:
    """From an installation: what the first page says."""
    where = f"{folder}/installed"
    for part in ("recorder", "run", "report"):
        argv = ["make", "-s", "-C", f"{TOP}/{part}", "install", f"PREFIX={where}", "DESTDIR="]
        call(argv, check=True, stdout=subprocess.DEVNULL)
    shutil.copy(suite.asancol, f"{where}/bin/asancol")
    build = [f"{where}/bin/asancol-cc", "-g", "examples/bug.c", "-o", f"{folder}/bug"]
    call(build, cwd=TOP, check=True)
    ran = call(
        [f"{where}/bin/asancol-run", "--", f"{folder}/bug", "Alice"],
        cwd=TOP, env=environment(), capture_output=True, text=True, check=False,
    )
    expect_ran(Ran(ran.returncode, ran.stdout, ran.stderr), 99, "bug.c:11", "bug.c:10")
    expect(ran.stdout, "Alice\n", "what it prints")
    with open(f"{TOP}/README.md", encoding="utf-8") as page:
        text = page.read()
    lines = [it for it in ran.stderr.splitlines() if not it.startswith(("==", "    #"))]
    lines = [re.sub(r"0x[0-9a-f]+", "0x", it.replace(TOP, "/home/me/asancol")) for it in lines]
    text = re.sub(r"0x[0-9a-f]+", "0x", text)
    expect([it for it in lines if it not in text], [], "what the page does not have")
    modules = f"{where}/lib/asancol/asancol_report"
    expect(os.path.isdir(f"{modules}/__pycache__"), True, "that the modules are compiled")
    shutil.rmtree(f"{modules}/__pycache__")
    expect(call([f"{where}/bin/asancol-report", "--version"], env=environment(), check=True,
                stdout=subprocess.PIPE).stdout.split()[0], b"asancol-report", "its name")
    expect(os.path.exists(f"{modules}/__pycache__"), False, "that something was written where it is installed")


ODD = b"\xc3\xbc k\xc2\x9b2J\x9b31m\xe2\x80\xae\xe2\x81\xa6\xd8\x9c\x1b[0m\n\xed\xa0\x80\xff\x7f"
SHOWN = "\u00fc k\\x9b2J\\x9b31m\\u202e\\u2066\\u061c\\x1b[0m\\x0a\\xed\\xa0\\x80\\xff\\x7f"


def check_odd_names(suite: Suite, folder: str) -> None:
    """Whoever prints a name, it does nothing to a terminal, and looks the same; and a log is UTF-8."""
    odd, log = os.fsdecode(os.fsencode(folder) + b"/" + ODD), f"{folder}/log"
    os.link(suite.program, odd)
    line = f"{folder}/{SHOWN}: ended abruptly, "
    for more in ("true", f"{suite.program} past"):
        run_real(suite, "--log-file", log, "--keep", f"{folder}/kept", "--unchecked=error", "--", "sh", "-c",
                 '"$1" kills_itself 9; eval "$2"', "sh", odd, more)
        expect(line in read(log), True, read(log))
    for name in os.listdir(f"{folder}/kept"):
        expect(name.isprintable(), True, ascii(name))
    for argv in (("--", f"{odd}x"), ("--quarantine", odd, "--", "true"), ("--json", f"{odd}/x", "--", "true"),
                 (f"--{odd}", "--", "true"), ("--leaks", odd, "--", "true"), ("--log-file", odd + "/x", "--", "true")):
        err = suite.run(*argv).err
        expect((SHOWN in err, err.rstrip("\n").replace("\n", "").isprintable()), (True, True), ascii(err))


def check_small_files(suite: Suite, folder: str) -> None:
    """A limit on the size of files ends neither asancol-run nor a checker by a signal, and the command has its own
    ways."""
    limited = ["prlimit", "--fsize=1000:", "--", RUN, "--log-file", f"{folder}/log", "--", "sh", "-c"]
    ignored = "grep SigIgn /proc/self/status"
    alone = suite.run_argv(["sh", "-c", ignored]).out.split()
    line = "prlimit --fsize=unlimited: {} sound; {}; exit 3"
    ran = suite.run_argv([*limited, line.format(suite.program, ignored)])
    expect((ran.status, ran.out.split()[-2:]), (3, alone), ran.err)
    line = "prlimit --fsize=unlimited: {} past 100; true"
    expect_ran(suite.run_argv([*limited, line.format(suite.program)]), 98)
    log = read(f"{folder}/log")
    expect("its checker printed no verdict, and ended with status 4" in log, True, log)
    ran = suite.run_argv(["prlimit", "--fsize=9:", "--", *limited[3:], "exit 3"])
    expect(ran.status, 98, ran.err)


def tests(suite: Suite) -> None:
    expect(os.access(CC, os.X_OK), True, "the recorder is built")
    for name, run_it in (
        ("report", check_report), ("colors", check_colors), ("forms", check_forms), ("job of GitHub", check_job),
        ("summaries", check_summaries_are_the_same),
        ("suppressions", check_suppressed), ("variables", check_variables),
        ("lowered bounds", check_lowered), ("names of classes", check_names), ("short stacks", check_short_stacks),
        ("baseline", check_baseline), ("outputs", check_outputs),
        ("outputs to descriptors", check_outputs_to_descriptors), ("nested", check_nested),
        ("nested options", check_nested_options), ("kept", check_kept),
        ("folder removed", check_folder_removed), ("crash", check_crash), ("awaited", check_awaited),
        ("odd names", check_odd_names), ("small files", check_small_files), ("bad rules", check_bad_rules),
        ("killed in a file", check_killed_in_a_file),
        ("trace without a quarantine", check_without_quarantine),
        ("live", check_live), ("without Python", check_without_python), ("many", check_many),
        ("first steps", check_first_steps),
    ):
        suite.test(f"whole: {name}", run_it)
    for compiler in ("gcc", "clang"):
        if shutil.which(compiler):
            suite.test(f"whole: removed, {compiler}", check_removed, compiler)
            suite.test(f"whole: without lines, {compiler}", check_bare, compiler)
            suite.test(f"whole: folded, {compiler}", check_folded, compiler)
    suite.test("whole: many removed", check_many_removed)
    if suite.run_argv(["unshare", "-rn", "true"]).status == 0:
        suite.test("whole: file instead of the socket", check_file_instead)
