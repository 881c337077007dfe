"""Leaks: a report for each place, or a line of the verdict."""

import json
import os
import re
import xml.etree.ElementTree as xml
from typing import Callable, Dict, List

from support import CC, REPORT, RUN, TESTS, Ran, Suite, expect, expect_in, expect_not_in, expect_ran
from testing.programs import call
from testing.reports import FORMS

PROGRAM = """
#include <stdlib.h>
#include <sys/wait.h>
#include <unistd.h>
static void *volatile sink;
__attribute__((noinline)) static void lose(size_t size) { sink = malloc(size); sink = NULL; }
__attribute__((noinline)) static void lose_two(void) {
    void **first = malloc(40); *first = malloc(30); sink = first; sink = NULL; }
__attribute__((noinline, no_sanitize("address", "kernel-address"))) static void clear_stack(void) {
    volatile char bytes[16000];
    for (size_t i = 0; i < sizeof bytes; i++) bytes[i] = 0; }
int main(int count, char **argv) {
    for (volatile int i = 0; i < 3; i++) lose(100);
    if (count > 1) lose_two();
    clear_stack();
    return 0; }
"""
SUMMED = "asancol: leaks: 370 bytes in 5 blocks at 3 places; --leaks=yes shows them\n"
REPORTED = ["ERROR: asancol: detected memory leaks\n",
            "\nDirect leak of 300 byte(s) in 3 object(s) allocated from:\n    #0 0x", " in lose ",
            "\nDirect leak of 40 byte(s) in 1 object(s) allocated from:\n",
            "\nIndirect leak of 30 byte(s) in 1 object(s) allocated from:\n",
            "asancol: 3 reports at 3 places; 1 process, ",
            "\nSUMMARY: asancol: 370 byte(s) leaked in 5 allocation(s)\n"]


def run_it(suite: Suite, *argv: str) -> Ran:
    return suite.run(*argv, ASANCOL_REPORT=REPORT)


def make(folder: str, compiler: str, text: str = PROGRAM, *flags: str) -> str:
    with open(f"{folder}/leak.c", "w", encoding="utf-8") as file:
        file.write(text)
    argv = [CC, "-g", "-O1", "-w", *flags, "leak.c", "-o", "leak"]
    call(argv, cwd=folder, env={**os.environ, "ASANCOL_CC": compiler}, check=True)
    return f"{folder}/leak"


def check_forms(suite: Suite, folder: str, compiler: str) -> None:
    program = make(folder, compiler)
    for words in (["--"], ["--leaks=yes", "--"], ["--full", "--"], ["-q", "--"]):
        expect_ran(run_it(suite, *words, program, "two"), 99, *REPORTED, absent=["asancol: leaks:"])
    expect_ran(suite.run_argv([program, "two"], ASANCOL_REPORT=REPORT, ASANCOL_RUN=RUN), 99, *REPORTED)
    ran = run_it(suite, "--leaks=summary", "--", program, "two")
    expect_ran(ran, 0, "asancol: no reports; 1 process, ", "\n" + SUMMED, absent=["ERROR", "SUMMARY"])
    ran = run_it(suite, "--leaks=no", "--", program, "two")
    expect_ran(ran, 0, "asancol: no reports; 1 process, ", absent=["leaks"])
    ran = run_it(suite, "--quiet", "--leaks=summary", "--", program, "two")
    expect((ran.status, "ERROR" in ran.err), (0, False), "quiet")
    ran = run_it(suite, "--leaks=maybe", "--", program)
    expect_ran(ran, 125, "asancol-run: --leaks: 'maybe' is not one of yes, summary and no\n")


def check_rules(suite: Suite, folder: str, compiler: str) -> None:
    """A suppressed leak is in no sum, and no report."""
    program = make(folder, compiler)
    for rule, left in (("leak:^lose$", "leaks: 70 bytes in 2 blocks at 2 places;"), ("leak:leak.c", ""),
                       ("indirect-leak:lose_two", "leaks: 340 bytes in 4 blocks at 2 places;")):
        with open(f"{folder}/rules", "w", encoding="utf-8") as file:
            file.write(rule + "\n")
        ran = run_it(suite, "--leaks=summary", "--suppressions", f"{folder}/rules", "--", program, "two")
        expect_ran(ran, 0, left, absent=["matched nothing"] + ([] if left else ["leaks:"]))
        ran = run_it(suite, "--suppressions", f"{folder}/rules", "--", program, "two")
        expect_ran(ran, 99 if left else 0, " suppressed; 1 process, ")


WRAPPED = """#include <stdlib.h>
static void *volatile sink;
__attribute__((noinline)) static void *allocate(size_t size) { return malloc(size); }
__attribute__((noinline)) static void parse(void) { sink = allocate(40); sink = NULL; }
__attribute__((noinline)) static void load(void) { sink = allocate(30); sink = NULL; }
int main(void) { parse(); load(); return 0; }
"""


def check_generated(suite: Suite, folder: str, compiler: str) -> None:
    """The line for a leak leaves another one in the report that the same function has allocated. A line with that
    function alone suppresses both."""
    program = make(folder, compiler, WRAPPED)
    ran = run_it(suite, "--gen-suppressions", "--", program)
    lines = re.findall(r"suppression: (at:leak:.*)", ran.err)
    expect([re.findall(r"(\w+)@", it)[:2] for it in lines], [["allocate", "parse"], ["allocate", "load"]], ran.err)
    for line, count in ((lines[0], 1), (lines[0].partition(";")[0], 2)):
        with open(f"{folder}/rules", "w", encoding="utf-8") as file:
            file.write(line + "\n")
        ran = run_it(suite, "--suppressions", f"{folder}/rules", "--", program)
        expect_ran(ran, 99 if count == 1 else 0, f" {count} suppressed; 1 process, ")


def check_outputs(suite: Suite, folder: str, compiler: str) -> None:
    program = make(folder, compiler)
    outputs = [f"--{name}={folder}/out.{name}" for name in FORMS]
    ran = run_it(suite, *outputs, "--", program, "two")
    expect_ran(ran, 99)
    texts: Dict[str, str] = {}
    for name in FORMS:
        with open(f"{folder}/out.{name}", encoding="utf-8") as file:
            texts[name] = file.read()
    lines: List[Dict[str, object]] = [json.loads(line) for line in texts["json"].splitlines()]
    found = sorted((it["class"], it["size"], it["by"]) for it in lines if it["type"] == "finding")
    expect(found, [("indirect-leak", 30, "recorder"), ("leak", 40, "recorder"), ("leak", 300, "recorder")], "results")
    sarif = json.loads(texts["sarif"])["runs"][0]["results"]
    expect(sorted(it["ruleId"] for it in sarif), ["indirect-leak", "leak", "leak"], "SARIF")
    expect(len(json.loads(texts["codequality"])), 3, "Code Quality")
    failures = xml.fromstring(texts["junit"]).iter("failure")
    expect(any("leak" in (it.get("type") or "") for it in failures), True, "JUnit")
    for name in FORMS:
        expect_in(texts[name], "irect leak of 300 byte(s) in 3 object(s)")
    known = run_it(suite, f"--baseline={folder}/out.json", "--", program, "two")
    expect_ran(known, 0, "asancol: no reports, 3 places known from the baseline; 1 process, ")
    ran = run_it(suite, "--leaks=summary", f"--json={folder}/sum.json", "--", program, "two")
    with open(f"{folder}/sum.json", encoding="utf-8") as file:
        text = file.read()
    run = next(it for it in map(json.loads, text.splitlines()) if it["type"] == "run")
    expect(run["leaks"], {"places": 3, "blocks": 5, "bytes": 370}, "the sum")
    expect_not_in(text, '"type":"finding"')


def check_several(suite: Suite, folder: str, compiler: str) -> None:
    """A place is one, in however many processes it leaks."""
    program = make(folder, compiler)
    ran = run_it(suite, "--leaks=summary", "--", "sh", "-c", f"{program}; {program}; {program} two")
    expect_ran(ran, 0, "asancol: leaks: 970 bytes in 11 blocks at 3 places; --leaks=yes shows them\n")
    ran = run_it(suite, "--", "sh", "-c", f"{program}; {program}; {program} two")
    expect_ran(ran, 99, "detected memory leaks (3 times, 3 processes)\n",
               "\nDirect leak of 900 byte(s) in 9 object(s) allocated from:\n", "asancol: 5 reports at 3 places;")
    argv = [f"--json={folder}/{name}.json" for name in ("one", "two")]
    run_it(suite, argv[0], "--", program)
    run_it(suite, argv[1], "--", "sh", "-c", f"{program}; {program} two")
    merged = suite.run_argv([REPORT, f"{folder}/one.json", f"{folder}/two.json"])
    texts = [text.split("asancol: 5 reports")[0] for text in (ran.err, merged.out)]
    first, again = (re.findall("==ERROR: .*\n.* allocated from:", text) for text in texts)
    expect(first, again, "merged")
    for name, words in (("one", [program]), ("two", ["sh", "-c", f"{program}; {program} two"])):
        run_it(suite, "--leaks=summary", f"--json={folder}/{name}-sum.json", "--", *words)
    merged = suite.run_argv([REPORT, f"{folder}/one-sum.json", f"{folder}/two-sum.json"])
    expect_in(merged.out, "asancol: leaks: 970 bytes in 11 blocks at 3 to ")
    merged = suite.run_argv([REPORT, f"{folder}/one.json", f"{folder}/two-sum.json"])
    expect_in(merged.out, "asancol: 1 report at 1 place;", "asancol: leaks: 670 bytes in 8 blocks at 3 places")


STUCK = """
#define _GNU_SOURCE
#include <pthread.h>
#include <stdlib.h>
#include <sys/syscall.h>
#include <unistd.h>
static void *wait_here(void *p) {
    unsigned long all = -1ul;
    syscall(SYS_rt_sigprocmask, 0, &all, NULL, sizeof all);
    for (;;) pause(); }
int main(void) {
    pthread_t thread;
    if (pthread_create(&thread, NULL, wait_here, NULL) == 0) usleep(50000);
    return 7; }
"""


def check_stuck(suite: Suite, folder: str, compiler: str) -> None:
    """If leaks could not be looked for, nobody calls the process clean of them."""
    program = make(folder, compiler, STUCK, "-pthread")
    said = f"asancol: leaks are not looked for: {program}: a thread does not stop\n"
    ran = run_it(suite, "--", program)
    expect_ran(ran, 98, said, "INCOMPLETE: its leaks were not looked for, such as when a thread does not stop\n")
    ran = run_it(suite, "--leaks=summary", f"--json={folder}/out.json", "--", program)
    note = "asancol: leaks of a process were not looked for, such as when a thread does not stop\n"
    expect_ran(ran, 7, said, "all complete\n", note)
    expect_in(suite.run_argv([REPORT, f"{folder}/out.json"]).out, note)
    expect_ran(run_it(suite, "--leaks=no", "--", program), 7, "all complete\n", absent=["leaks"])


# A program that installs a filter of system calls, and ends with status 7 if it is not ended by one.
FILTERED = """
#define _GNU_SOURCE
#include <linux/filter.h>
#include <linux/seccomp.h>
#include <stddef.h>
#include <stdlib.h>
#include <string.h>
#include <sys/prctl.h>
#include <sys/syscall.h>
#include <unistd.h>
static void *volatile sink;
#define ALLOW(name) BPF_JUMP(BPF_JMP | BPF_JEQ | BPF_K, SYS_##name, 0, 1), BPF_STMT(BPF_RET | BPF_K, SECCOMP_RET_ALLOW)
int main(int count, char **argv) {
    sink = malloc(100);
    sink = NULL;
    struct sock_filter code[] = {
        BPF_STMT(BPF_LD | BPF_W | BPF_ABS, offsetof(struct seccomp_data, nr)), ALLOW(read), ALLOW(write), ALLOW(exit),
        ALLOW(exit_group), ALLOW(brk), ALLOW(rt_sigreturn), ALLOW(mmap), ALLOW(munmap), ALLOW(mprotect), ALLOW(madvise),
        ALLOW(futex), ALLOW(getpid), ALLOW(rt_sigprocmask), ALLOW(clock_gettime), ALLOW(sendto), ALLOW(sendmsg),
        ALLOW(fstat), ALLOW(newfstatat),
        BPF_STMT(BPF_RET | BPF_K, SECCOMP_RET_KILL_PROCESS)};
    struct sock_fprog filter = {sizeof code / sizeof *code, code};
    if (strcmp(argv[1], "errno") == 0) code[filter.len - 1].k = SECCOMP_RET_ERRNO | 1;
    prctl(PR_SET_NO_NEW_PRIVS, 1, 0, 0, 0);
    if (strcmp(argv[1], "strict") == 0 ? prctl(PR_SET_SECCOMP, SECCOMP_MODE_STRICT)
                                        : prctl(PR_SET_SECCOMP, SECCOMP_MODE_FILTER, &filter)) return 1;
    if (count > 2) syscall(SYS_exit, 7);
    return 7; }
"""


def check_filtered(suite: Suite, folder: str, compiler: str) -> None:
    """Where a filter refuses calls of the recorder's, or ends whoever makes them, leaks are found without these. Who
    leaves at once, as in strict mode, ends as without the recorder: nobody looks for leaks then."""
    program = make(folder, compiler, FILTERED)
    for how, status, said in ((["strict", "leaves"], 7, "all complete\n"),
                              (["kill"], 99, "detected memory leaks"),
                              (["errno"], 99, "detected memory leaks")):
        expect_ran(run_it(suite, "--", program, *how), status, said)
    expect_ran(run_it(suite, "--leaks=summary", "--", program, "errno"), 7, "all complete\n", "leaks: 100 bytes")


# How a process with other threads ends, for leaving.c. Each has status 3, and the output that it has alone.
LEAVINGS = ["watched", "ticks", "exits-in-thread", "exits-beside-pause", "exits-in-several", "exits-quickly",
            "exits-at-once", "exits-in-handler", "allocates", "prints", "reads", "clones", "locks"]


def ways_of_running(suite: Suite) -> List[Callable[..., Ran]]:
    """Returns under asancol-run, with leaks summed up, and with a run of its own."""
    return [lambda *argv: run_it(suite, "-q", "--", *argv),
            lambda *argv: run_it(suite, "-q", "--leaks=summary", "--", *argv),
            lambda *argv: suite.run_argv(argv, ASANCOL_REPORT=REPORT, ASANCOL_RUN=RUN)]


def build(folder: str, compiler: str, name: str) -> str:
    argv = [CC, "-g", "-O1", "-w", "-pthread", f"{TESTS}/{name}.c", "-o", name]
    call(argv, cwd=folder, env={**os.environ, "ASANCOL_CC": compiler}, check=True)
    return f"{folder}/{name}"


def check_exits(suite: Suite, folder: str, compiler: str) -> None:
    """At an exit no other thread comes back from the call in which it waits: it would go on, and be seen."""
    leaving = build(folder, compiler, "leaving")
    for run in ways_of_running(suite):
        for how in LEAVINGS:
            alone = "written at the end\nbegins\n" if how == "locks" else "begins\n" * ("-quick" not in how)
            ran = run(leaving, how)
            expect((ran.status, ran.out, ran.err), (3, alone if how != "exits-at-once" else "", ""), how)


def check_waits(suite: Suite, folder: str, compiler: str) -> None:
    """A search for leaks in the middle of the process: calls of other threads go on, and answer as alone. Only a call
    that has sent a part comes back with it."""
    waits = build(folder, compiler, "waits")
    call(["gcc", "-w", "-pthread", f"{TESTS}/waits.c", "-o", "alone"], cwd=folder, check=True)
    alone = suite.run_argv([f"{folder}/alone"])
    for run in ways_of_running(suite)[::2]:
        ran = run(waits)
        expect(ran.out.replace("send_of_time: 0 0 early\n", "send_of_time: 0 0\n"), alone.out, "answers")


def check_many_exits(suite: Suite, folder: str, compiler: str) -> None:
    """The same, again and again: a watchdog does not fire, and the status is that of the exit."""
    leaving = build(folder, compiler, "leaving")
    for run in ways_of_running(suite):
        for _ in range(20):
            for how in ("watched", "exits-in-thread"):
                ran = run(leaving, how)
                expect((ran.status, ran.out, ran.err), (3, "begins\n", ""), how)


def tests(suite: Suite) -> None:
    for compiler in ("gcc", "clang"):
        for name, check in (("forms", check_forms), ("suppressed", check_rules),
                            ("generated suppressions", check_generated), ("outputs", check_outputs),
                            ("of several processes", check_several), ("if a thread does not stop", check_stuck),
                            ("under a filter of system calls", check_filtered),
                            ("nobody wakes at an exit", check_exits),
                            ("nobody wakes at many exits", check_many_exits),
                            ("nobody wakes at a search", check_waits)):
            suite.test(f"{compiler} leaks: {name}", check, compiler)
