"""What a user of AddressSanitizer has already: ASAN_OPTIONS, LSAN_OPTIONS, and functions of the program."""

import glob
import os
import re
import shutil
import signal
import subprocess
from typing import List, Tuple

from leaks import PROGRAM, make
from support import (REPORT, RUN, SANITIZE, TOP, Ran, Suite, expect, expect_in, expect_not_in, expect_ran, leave_out,
                     write_text)
from testing.programs import call, compilers_there

PAST = "heap-buffer-overflow: store of 1 byte"
HALTED = "ERROR: AddressSanitizer: heap-buffer-overflow on "
SOURCES = f"{TOP}/recorder/out/suites/sources/llvm-toolchain-14/compiler-rt/lib"
NOTE = ("asancol: ASAN_OPTIONS: without effect here: log_to_syslog=1, start_deactivated=1; "
        "unknown: halt_on_eror=1 (is halt_on_error meant?), x\n")


def check_statuses(suite: Suite, folder: str) -> None:
    """The command line wins over the variables, and a variable of asancol too."""
    def ran(status: int, *texts: str, option: str = "--wait=5", way: str = "past", **settings: str) -> None:
        expect_ran(suite.run(option, "--", suite.program, way, ASANCOL_REPORT=REPORT, **settings), status, *texts)
    ran(42, PAST, ASAN_OPTIONS="exitcode=42")
    ran(7, PAST, option="--exitcode=7", ASAN_OPTIONS="exitcode=42")
    ran(7, PAST, option="--error-exitcode=7", ASAN_OPTIONS="exitcode=42")
    ran(43, PAST, ASAN_OPTIONS="exitcode=42", LSAN_OPTIONS="verbosity=1:exitcode='43'")
    ran(99, "ASAN_OPTIONS: without effect here: exitcode=300\n", ASAN_OPTIONS="exitcode=300")
    ran(1, HALTED, "in store_past ", ASAN_OPTIONS="halt_on_error=1")
    ran(5, HALTED, option="--exitcode=5", ASAN_OPTIONS="halt_on_error=1:abort_on_error=0")
    ran(5, HALTED, option="--exitcode=5", ASAN_OPTIONS="abort_on_error=1:exitcode=42")
    ran(-signal.SIGSEGV, "1 crashed", option="--exitcode=5", way="crashes", ASAN_OPTIONS="exitcode=42")
    ran(99, HALTED, ASANCOL_HALT="1", ASAN_OPTIONS="halt_on_error=1")
    ran(99, PAST, "all complete\n", ASAN_OPTIONS="halt_on_error=1", ASANCOL_HALT="0")
    ran(99, "1048576 bytes of freed memory are held back (--quarantine)", option="--full",
        ASAN_OPTIONS="quarantine_size_mb=1")
    ran(99, "1024 bytes of freed memory are held back (ASANCOL_QUARANTINE)", option="--full",
        ASAN_OPTIONS="quarantine_size_mb=1", ASANCOL_QUARANTINE="1024")
    for name in ("log", "new/of%b/log"):  # folders are made, and a percent sign is one
        ran(99, "asancol: 1 report ", ASAN_OPTIONS=f"log_path={folder}/{name}:detect_odr_violation=2")
        (log,) = glob.glob(f"{folder}/{name}.*")
        with open(log, encoding="utf-8") as file:
            expect(": AddressSanitizer: heap-buffer-overflow" in file.read(), True, "the file of the process")
    ran(99, PAST, "without effect here: log_path=/proc/new/log (No such file or directory)\n",
        ASAN_OPTIONS="log_path=/proc/new/log")


def check_ends(suite: Suite, folder: str) -> None:
    """With abort_on_error=1 a process ends at its first report by SIGABRT, and else, if it halts by AddressSanitizer's
    options, with the status of that."""
    def ends(options: str, status: int, *texts: str) -> None:
        result = f"{folder}/r"
        words = ["--json", result, "--", "sh", "-c", f"{suite.program} past; echo status $? >&2"]
        ran = suite.run(*words, ASAN_OPTIONS=options, ASANCOL_REPORT=REPORT)
        expect_ran(ran, status, *texts)
    ends("abort_on_error=1", 134, "status 134\n", HALTED)
    ends("abort_on_error=1:halt_on_error=0", 134, "status 0\n", PAST)
    ends("abort_on_error=0", 99, "status 0\n", PAST)
    ends("halt_on_error=1", 1, "status 1\n", HALTED)
    ends("abort_on_error=0:halt_on_error=1", 1, "status 1\n", HALTED)
    ends("abort_on_error=0:halt_on_error=1:exitcode=42", 42, "status 42\n", HALTED)
    halts = {"ASAN_OPTIONS": "abort_on_error=0:halt_on_error=1", "ASANCOL_REPORT": REPORT}
    expect(suite.run_argv([suite.program, "past"], ASANCOL_RUN=RUN, **halts).status, 1, "the status of its own run")
    aborts = {"ASAN_OPTIONS": "abort_on_error=1", "ASANCOL_REPORT": REPORT, "ASANCOL_RUN": RUN}
    for argv in ([RUN, "--", suite.program, "past"], [suite.program, "past"]):
        expect(suite.run_argv(argv, **aborts).status, -signal.SIGABRT, "the command's own signal")


def check_named(suite: Suite, folder: str) -> None:
    """What has no effect and could change a result is said once, and the rest with --verbose."""
    words = "halt_on_eror=1,log_to_syslog=1 symbolize=0:start_deactivated=1:detect_write_exec=0:x:exitcode=3"
    ran = suite.run("--", suite.program, "sound", ASAN_OPTIONS=words, ASANCOL_REPORT=REPORT)
    expect_ran(ran, 0, NOTE, absent=["symbolize"])
    ran = suite.run("-v", "--exitcode=4", "--", "sh", "-c", f"{suite.program} past; {suite.program} past",
                    ASAN_OPTIONS=words, ASANCOL_REPORT=REPORT)
    expect_ran(ran, 4, NOTE, "asancol: ASAN_OPTIONS: the command line or an ASANCOL variable wins: exitcode=3\n",
               "asancol: ASAN_OPTIONS: no report depends on symbolize=0, detect_write_exec=0\n")
    expect(ran.err.count("start_deactivated"), 1, "once")
    expect_ran(suite.run("-q", "--", suite.program, "sound", ASAN_OPTIONS=words), 0, absent=["asancol"])


def check_asked(suite: Suite, folder: str) -> None:
    """A user who asks whether anything is checked, and what can be set, gets an answer, also from a quiet run."""
    def ran(**settings: str) -> Ran:
        return suite.run("-q", "--", suite.program, "sound", ASANCOL_REPORT=REPORT, **settings)
    for name in ("ASAN_OPTIONS", "LSAN_OPTIONS"):
        expect_ran(ran(**{name: "verbosity=1"}), 0, f"asancol: {name}: taken: verbosity=1\n", ": complete, ")
        names = {it for it, fate, _ in table() if fate in ("RUN", "PROCESS")}
        expect(set(re.findall(r"^\t(\w+)$", ran(**{name: "help=1"}).err, re.M)), names, "the options of the help")
    for own in "0", RUN:
        alone = suite.run_argv([suite.program, "sound"], ASAN_OPTIONS="help=true", ASANCOL_RUN=own)
        expect((alone.status, alone.err.count("Available flags for AddressSanitizer:\n\texitcode\n\t\t- ")), (0, 1),
               alone.err)
        expect([it for it in ("`", "](", ".md") if it in alone.err], [], "marks of the page")
    expect_ran(ran(ASAN_OPTIONS="verbosity=0:help=0"), 0, absent=["asancol"])


def check_symbolizer(suite: Suite, folder: str) -> None:
    """Both ways to name AddressSanitizer's symbolizer are read. One that is missing costs no lines."""
    finder = f"{folder}/finder"
    write_text(finder, '#!/bin/sh\n: > "$0.ran"\nexec addr2line "$@"\n')
    os.chmod(finder, 0o755)
    for name, value in (("ASAN_OPTIONS", f"external_symbolizer_path={finder}"), ("ASAN_SYMBOLIZER_PATH", finder)):
        expect_ran(suite.run("--", suite.program, "past", ASANCOL_REPORT=REPORT, **{name: value}), 99, "in store_past ")
        os.remove(f"{finder}.ran")
    ran = suite.run("--", suite.program, "past", ASANCOL_REPORT=REPORT, ASAN_SYMBOLIZER_PATH=f"{folder}/none")
    expect_ran(ran, 99, "in store_past ", absent=["none"])


def check_leaks(suite: Suite, folder: str) -> None:
    program = make(folder, "gcc")

    def ran(status: int, *texts: str, option: str = "--wait=5", before: str = "", **settings: str) -> None:
        argv = [option, "--", "sh", "-c", f"{before} {program}"]
        absent = ["asancol: leaks: "] if "leaks=0" in str(settings) else []
        expect_ran(suite.run(*argv, ASANCOL_REPORT=REPORT, **settings), status, *texts, absent=absent)
    ran(99, "Direct leak of 300 byte(s)")
    ran(0, "asancol: leaks: 300 bytes", option="--leaks=summary")
    ran(0, "asancol: leaks: 300 bytes", option="--leaks=summary", ASAN_OPTIONS="detect_leaks=1")
    ran(99, "Direct leak of 300 byte(s)", ASAN_OPTIONS="detect_leaks=1")
    ran(99, "Direct leak of 300 byte(s)", ASAN_OPTIONS="detect_leaks=0", LSAN_OPTIONS="detect_leaks=1")
    ran(0, "no reports; 1 process", ASAN_OPTIONS="detect_leaks=0")
    ran(99, "Direct leak of 300 byte(s)", option="--leaks=yes", ASAN_OPTIONS="detect_leaks=0")
    ran(0, "checks turned off by ASAN_OPTIONS: detect_leaks=0\n", before="ASAN_OPTIONS=detect_leaks=0",
        ASAN_OPTIONS="detect_leaks=1")
    write_text(f"{folder}/known", "# known\nleak:^lose$\nodr_violation:x\n")
    ran(0, "no reports, 1 suppressed;", ASAN_OPTIONS="detect_leaks=1", LSAN_OPTIONS=f"suppressions={folder}/known")
    ran(99, f"LSAN_OPTIONS: without effect here: suppressions={folder}/no (not a readable file)\n",
        LSAN_OPTIONS=f"suppressions={folder}/no")


def check_relative_rules(suite: Suite, folder: str) -> None:
    """A relative file of suppressions is looked for in the current folder, and then in that of the command's file."""
    program = make(folder, "gcc")
    for name in ("bin", "away"):
        os.mkdir(f"{folder}/{name}")
    os.symlink(program, f"{folder}/bin/linked")
    write_text(f"{folder}/known", "leak:^lose$\n")

    def ran(status: int, text: str, *argv: str, cwd: str = "away", **settings: str) -> None:
        done = suite.run("--leaks=yes", "--", *argv, cwd=f"{folder}/{cwd}", ASANCOL_REPORT=REPORT,
                         LSAN_OPTIONS="suppressions=known", **settings)
        expect_ran(done, status, text)
    ran(0, "no reports, 1 suppressed;", program)
    ran(0, "no reports, 1 suppressed;", "../bin/linked")
    ran(0, "no reports, 1 suppressed;", "linked", PATH=f"{folder}/bin:{os.environ['PATH']}")
    ran(99, "LSAN_OPTIONS: without effect here: suppressions=known (not a readable file)\n", "sh", "-c", program)
    write_text(f"{folder}/away/known", "leak:nothing\n")
    ran(99, "Direct leak of 300 byte(s)", program)
    ran(0, "no reports, 1 suppressed;", "sh", "-c", program, cwd=".")


OF_PROGRAM = """
const char *__asan_default_options(void) {
    return "alloc_dealloc_mismatch=0:quarantine_size_mb=3:start_deactivated=1:symbolize=0:"
           "detect_leaks=DETECT"; }
const char *__lsan_default_suppressions(void) { return "# known\\nleak:^lose$\\n"; }
"""


DEATH_TEST = """
#include <stdlib.h>
#include <sys/wait.h>
#include <unistd.h>
int main(int count, char **argv) {
    int status = 0;
    pid_t child = fork();
    if (child == 0 || count > 2) {
        char *block = malloc(3);
        block[count + 2] = 1;
        free(block);
        _exit(0); }
    (void)argv;
    return waitpid(child, &status, 0) != child || status == 0; }
"""


def check_death_test(suite: Suite, folder: str) -> None:
    """A report at which a process has halted does not count, if its parent was recorded, has waited for it, and all
    ended well, unless another process has it too. A shell that minds no status hides none."""
    write_text(f"{folder}/d.c", DEATH_TEST)
    call([f"{TOP}/recorder/asancol-cc", "-g", "-w", "d.c", "-o", "d"], cwd=folder, check=True)
    halts = {"ASAN_OPTIONS": "halt_on_error=1", "ASANCOL_REPORT": REPORT}
    line = "asancol: 1 process whose parent waited for it crashed or halted; --crashes shows it\n"
    result = f"{folder}/r"
    ran = suite.run("--json", result, "--", f"{folder}/d", **halts)
    expect_ran(ran, 0, "asancol: no reports; 2 processes, ", line, absent=[PAST, "SUMMARY: asancol"])
    expect_in(suite.run_argv([REPORT, result]).out, "asancol: no reports; 2 processes, ", line)
    aborts = {"ASANCOL_HALT": "1", "ASANCOL_REPORT": REPORT}
    expect_ran(suite.run("--", f"{folder}/d", **aborts), 0, line, absent=[PAST])
    expect_in(suite.run_argv([REPORT, "--crashes", result]).out, PAST, "asancol: 1 report at 1 place; 2 processes, ")
    expect_ran(suite.run("--", f"{folder}/d", **halts), 0, "asancol: no reports; 2 processes, ", line)
    expect_ran(suite.run("-q", "--", f"{folder}/d", **halts), 0, absent=["asancol: "])
    expect_ran(suite.run("--crashes", "--", f"{folder}/d", **halts), 1, HALTED, absent=["waited for"])
    expect_ran(suite.run("--", "sh", "-c", f"{folder}/d; {folder}/d 2 3; true", **halts), 1, HALTED)
    expect_ran(suite.run("--", "sh", "-c", f"{suite.program} past; true", **halts), 1, HALTED, absent=["waited for"])
    expect_ran(suite.run("--", "sh", "-c", f"{folder}/d; exit 3", **halts), 1, HALTED, absent=["waited for"])
    expect_ran(suite.run("--", f"{folder}/d", ASANCOL_REPORT=REPORT), 99, PAST, absent=["waited for"])


def check_with_undefined(suite: Suite, folder: str) -> None:
    """A crash is printed also if the program has UndefinedBehaviorSanitizer's runtime, which begins before all else."""
    write_text(f"{folder}/c.c", "int main(int n, char **v) { (void)v; return *(volatile int *)(n > 5 ? &n : 0); }\n")
    for compiler in compilers_there():
        argv = [f"{TOP}/recorder/asancol-cc", "-g", "-fsanitize=address,undefined", "c.c", "-o", "c"]
        if call(argv, cwd=folder, capture_output=True, env={**os.environ, "ASANCOL_CC": compiler}).returncode == 0:
            ran = suite.run("--", f"{folder}/c", ASANCOL_REPORT=REPORT)
            expect_ran(ran, -signal.SIGSEGV, "1 crashed", "SUMMARY: asancol: SEGV ", " in main\n")


def check_halts(suite: Suite, folder: str) -> None:
    """A report at which a process has halted stands once in each file, with functions and lines: printed by the run,
    or by the process itself, if its standard error is another file."""
    halts = {"ASAN_OPTIONS": "halt_on_error=1", "ASANCOL_REPORT": REPORT}
    past = f"{suite.program} past"

    def read(path: str) -> str:
        with open(path, encoding="utf-8") as file:
            return file.read()

    def texts(ran: Ran, status: int = 1) -> Tuple[int, int]:
        expect(ran.status, status, ran.err)
        return ran.err.count(HALTED), ran.err.count("ERROR: ")
    for word in ("--wait=5", "--format=asan", "--live=exit", "-q"):
        for halt in ("1", "2"):
            ran = suite.run(word, "--", *past.split(), ASANCOL_HALT=halt, **halts)
            expect(texts(ran, 99), (1, 1), ran.err)
            expect_in(ran.err, " in store_past ", "asancol: 1 report at 1 place; 1 process, ")
    ran = suite.run_argv(past.split(), ASANCOL_RUN=RUN, **halts)
    expect(texts(ran), (1, 1), ran.err)
    expect_in(ran.err, " in store_past ")
    for argv in (["--", "sh", "-c", f"{past} 2> {folder}/e"], ["--log-file", f"{folder}/log", "--", *past.split()]):
        ran = suite.run(*argv, **halts)
        own = ran.err if "--log-file" in argv else read(f"{folder}/e")
        ours = ran.err if own is not ran.err else read(f"{folder}/log")
        expect((own.count("ERROR: "), own.count(HALTED), ours.count("ERROR: "), ours.count(HALTED)), (1, 1, 1, 0), ours)
        expect_in(own, " in store_past /", "allocated by thread T0 here:\n    #0 0x", "==ABORTING\n")
        expect_in(ours, PAST, "in store_past ")
    ran = suite.run("--", "env", f"ASAN_OPTIONS=halt_on_error=1:log_path={folder}/alone", *past.split(),
                    ASANCOL_REPORT=REPORT)
    (alone,) = glob.glob(f"{folder}/alone.*")
    expect((read(alone).count(HALTED), read(alone).count(" in store_past /")), (1, 1), read(alone))
    result = f"{folder}/r"
    line = f"{past}; {past}; {past} 2> {folder}/e"
    ran = suite.run("--json", result, "--keep", f"{folder}/kept", "--", "sh", "-c", line, **halts)
    expect(texts(ran), (2, 2), ran.err)
    expect_in(ran.err, ": 3 times, 3 processes\n", "asancol: 3 reports at 1 place; 3 processes, ")
    for argv in ([result], ["--trace", *glob.glob(f"{folder}/kept/*.trace")]):
        expect_in(suite.run_argv([REPORT, *argv]).out, PAST, " (3 times, 3 processes)\n", "in store_past ")
    ran = suite.run("--", *past.split(), ASAN_OPTIONS="halt_on_error=1", ASANCOL_REPORT="/proc/none/report")
    expect(texts(ran), (1, 1), "asancol-report is not there")
    ran = suite.run("--", "sh", "-c", f"{past} 2> {folder}/e", ASAN_OPTIONS="halt_on_error=1",
                    ASANCOL_REPORT="/proc/none/report")
    expect_not_in(read(f"{folder}/e"), "store_past")
    expect(read(f"{folder}/e").count(HALTED), 1, "the process's own text")


KNOWN_BUGS = """
#include <pthread.h>
#include <stdio.h>
#include <stdlib.h>
__attribute__((noinline)) static void known_loop(volatile char *block) { for (int i = 0; i < 1000; i++) block[8] = 1; }
__attribute__((noinline)) static void known_free(char *block) { free(block); free(block); }
static void *run(void *block) { known_loop(block); return NULL; }
int main(int argc, char **argv)
{
    pthread_t threads[4];
    char *block = malloc(8);
    for (int i = 0; i < 4; i++) pthread_create(&threads[i], NULL, run, block);
    for (int i = 0; i < 4; i++) pthread_join(threads[i], NULL);
    known_free(malloc(3));
    fprintf(stderr, "it goes on\\n");
    if (argc > 1) block[9] = 1;
    fprintf(stderr, "it ends %s\\n", argv[0]);
    free(block);
}
"""


def check_suppressed_halt(suite: Suite, folder: str, compiler: str) -> None:
    """A report that does not count ends no process, whoever says so, and the next one that counts does."""
    program, known, result = make(folder, compiler, KNOWN_BUGS, "-pthread"), f"{folder}/known", f"{folder}/r.jsonl"
    write_text(known, "*:known_*\n")
    expect_ran(suite.run("--json", result, "--", program, ASANCOL_REPORT=REPORT), 99)
    for rule in (f"--suppressions={known}", f"--baseline={result}"):
        for settings in ({"ASAN_OPTIONS": "halt_on_error=1"}, {"ASAN_OPTIONS": "abort_on_error=1"},
                         {"ASANCOL_HALT": "2"}):
            both = {**settings, "ASANCOL_REPORT": REPORT}
            ran = suite.run(rule, "--", program, **both)
            expect_ran(ran, 0, "it goes on\n", "it ends", "asancol: no reports, ", absent=["ERROR"])
            ran = suite.run(rule, "--", program, "bug", **both)
            expect_in(ran.err, "it goes on\n=====", HALTED, " in main ", "asancol: 1 report at 1 place")
            expect_not_in(ran.err, "it ends")
            expect(ran.status != 0, True, "the status of a halt")
    own = {"ASANCOL_RUN": RUN, "ASANCOL_REPORT": REPORT, "ASANCOL_RUN_OPTIONS": f"--suppressions={known}",
           "ASANCOL_HALT": "1"}
    expect_ran(suite.run_argv([program], **own), 0, "it ends", absent=["ERROR"])
    expect_ran(suite.run_argv([program, "bug"], **own), 99, "it goes on\n=====", HALTED, absent=["it ends"])
    own.update(ASAN_OPTIONS=f"suppressions={known}:halt_on_error=1", ASANCOL_RUN_OPTIONS="")
    expect_ran(suite.run_argv([program], **own), 0, "it ends", absent=["ERROR"])


def check_unanswered_halt(suite: Suite, folder: str) -> None:
    """Nobody can say whether the report counts: the process ends."""
    program = make(folder, compilers_there()[0], KNOWN_BUGS, "-pthread")
    write_text(f"{folder}/known", "*:known_*\n")
    ran = suite.run("--suppressions", f"{folder}/known", "--", program, ASAN_OPTIONS="halt_on_error=1",
                    ASANCOL_REPORT="/proc/none/report")
    expect_in(ran.err, HALTED)
    expect_not_in(ran.err, "it goes on")


ENDING = """
#include <signal.h>
#include <stdlib.h>
#include <unistd.h>
static void ends(int number) { (void)number; _exit(write(2, "it ends\\n", 8) == 8 ? 7 : 8); }
static void past(char *block, int at) { block[at] = 1; }
int main(void) { signal(SIGABRT, ends); past(malloc(8), 8); return 0; }
"""


def check_words_come_first(suite: Suite, folder: str) -> None:
    """The report stands before what the program says as it ends, such as libFuzzer's handler of SIGABRT: under a run,
    and in one of its own. A run with another form prints that alone."""
    write_text(f"{folder}/e.c", ENDING)
    call([f"{TOP}/recorder/asancol-cc", "-g", "-w", "e.c", "-o", "e"], cwd=folder, check=True)
    halts = {"ASANCOL_HALT": "1", "ASANCOL_REPORT": REPORT}
    for ran in (suite.run("--", f"{folder}/e", **halts), suite.run("-q", "--live=exit", "--", f"{folder}/e", **halts),
                suite.run_argv([f"{folder}/e"], ASANCOL_RUN=RUN, **halts)):
        expect((ran.err.count(HALTED), ran.err.count(" in past /")), (1, 1), ran.err)
        expect(ran.err.index(HALTED) < ran.err.index("==ABORTING") < ran.err.index("it ends"), True, ran.err)
    ran = suite.run("--format=gcc", "--", f"{folder}/e", **halts)
    expect((ran.err.count(HALTED), ran.err.count("e.c:6:51: error: ")), (0, 1), ran.err)


THREADED = """
#include <pthread.h>
#include <stdlib.h>
#include <unistd.h>
static void *past(void *block) { ((volatile char *)block)[3] = 1; return 0; }
int main(void) {
    pthread_t thread;
    pthread_create(&thread, 0, past, malloc(3));
    usleep(50000);
    return 0; }
"""


def check_exit_at_halt(suite: Suite, folder: str) -> None:
    """While a thread that has halted waits for the text of its report, another one does not end the process."""
    write_text(f"{folder}/t.c", THREADED)
    call([f"{TOP}/recorder/asancol-cc", "-g", "-w", "-pthread", "t.c", "-o", "t"], cwd=folder, check=True)
    ran = suite.run("--", "sh", "-c", f"{folder}/t 2> {folder}/e; echo $?", ASAN_OPTIONS="halt_on_error=1",
                    ASANCOL_REPORT=REPORT)
    with open(f"{folder}/e", encoding="utf-8") as file:
        expect_in(file.read(), HALTED, " in past /", "ABORTING")
    expect(ran.out, "1\n", ran.err)
    ran = suite.run("--", "sh", "-c", f"{folder}/t 2> {folder}/e; echo $?", ASANCOL_HALT="1", ASANCOL_REPORT=REPORT)
    expect(ran.out, f"{128 + signal.SIGABRT}\n", ran.err)


def check_log_path(suite: Suite, folder: str) -> None:
    """The files alone have reports and crashes, as with AddressSanitizer: standard error has the summary of a run, and
    nothing else."""
    summary = re.compile(r"asancol: (1 report at 1 place|no reports); 1 process, \d+ events?; all complete.*\n")

    def check(way: str, text: str, ran: Ran, is_said: bool, status: int) -> None:
        (path,) = glob.glob(f"{folder}/log.*")
        with open(path, encoding="utf-8") as file:
            expect_in(file.read(), text)
        os.unlink(path)
        expect(summary.fullmatch(ran.err) is not None if is_said else ran.err == "", True, f"{way}: {ran.err}")
        expect((ran.status, ran.out), (status, ""), way)

    for way, text in (("past", "in store_past "), ("crashes", "AddressSanitizer: SEGV ")):
        for halts in ("0", "1"):
            given = {"ASAN_OPTIONS": f"log_path={folder}/log:halt_on_error={halts}", "ASANCOL_REPORT": REPORT}
            status = 1 if halts == "1" else -signal.SIGSEGV if way == "crashes" else 99
            check(way, text, suite.run("--", suite.program, way, **given), True, status)
            check(way, text, suite.run("--live=exit", "--", suite.program, way, **given), True, status)
            check(way, text, suite.run("-q", "--", suite.program, way, **given), False, status)
            check(way, text, suite.run_argv([suite.program, way], ASANCOL_RUN=RUN, **given), False, status)
    aborted = suite.run("--", suite.program, "aborts", ASAN_OPTIONS=f"log_path={folder}/log", ASANCOL_REPORT=REPORT)
    expect((aborted.status, glob.glob(f"{folder}/log.*")), (0, []), "a child that aborts")
    alone = suite.run_argv([suite.program, "past"], ASANCOL_HALT="1", ASAN_OPTIONS=f"log_path={folder}/alone")
    expect((alone.status, alone.err), (-signal.SIGABRT, ""), "without a run")
    (path,) = glob.glob(f"{folder}/alone.*")
    with open(path, encoding="utf-8") as file:
        expect_in(file.read(), HALTED)
    ran = suite.run("--", suite.program, "past", ASAN_OPTIONS="log_path=stdout:halt_on_error=1", ASANCOL_REPORT=REPORT)
    expect((ran.err, ran.out.count(HALTED), ran.out.count("in store_past ")), ("", 1, 1), ran.out)


def check_no_log(suite: Suite, folder: str) -> None:
    """If no file can be made, that is said, with the reason, and the reports are on standard error: in a quiet run, by
    an own run, and without a run."""
    path = f"{folder}/{'long' * 63}"  # with the process's number it is too long a name
    given = {"ASAN_OPTIONS": f"log_path={path}", "ASANCOL_REPORT": REPORT}
    halts = {**given, "ASAN_OPTIONS": f"log_path={path}:halt_on_error=1"}
    said = "File name too long; its reports are printed instead\n"
    for argv in ["--"], ["-q", "--"], ["--live=exit", "--"]:
        expect_ran(suite.run(*argv, suite.program, "past", **given), 99, said, HALTED, "in store_past ")
    expect_ran(suite.run("--", suite.program, "past", **halts), 1, said, HALTED)
    expect_ran(suite.run_argv([suite.program, "past"], ASANCOL_RUN=RUN, **given), 99, said, HALTED)
    expect_ran(suite.run("--", suite.program, "crashes", **given), -signal.SIGSEGV, said, "AddressSanitizer: SEGV ")
    two = suite.run("-q", "--", "sh", "-c", f"{suite.program} past; {suite.program} past", **given)
    expect((two.err.count(said), two.err.count(HALTED)), (1, 2), two.err)
    expect_ran(suite.run(f"--log-path={path}", "--", suite.program, "past", ASANCOL_REPORT=REPORT), 99,
               "File name too long\n", PAST)
    alone = suite.run_argv([suite.program, "past"], ASANCOL_HALT="1", ASAN_OPTIONS=f"log_path={path}")
    expect_ran(alone, -signal.SIGABRT, "asancol: the report is on standard error: ", ": File name too long\n", HALTED)
    for option in "--html", "--json", "--sarif", "--junit":
        expect_ran(suite.run("-q", option, "/proc/no", "--", suite.program, "past", ASANCOL_REPORT=REPORT), 99, PAST,
                   "asancol-report: /proc/no: No such file or directory\n")
        expect_ran(suite.run("-q", option, "/proc/no", "--", suite.program, "sound", ASANCOL_REPORT=REPORT), 98,
                   "asancol-report: /proc/no: No such file or directory\n")
    expect_ran(suite.run("--log-file", "/proc/no", "--", suite.program, "past"), 125, "asancol-run: /proc/no: No such ")


def check_at_once(suite: Suite, folder: str) -> None:
    """It stands there before the command goes on for long."""
    line = f"{suite.program} past; until grep -q AddressSanitizer {folder}/e; do sleep 0.1; done; echo later >&2"
    with open(f"{folder}/e", "wb") as err:
        done = call([RUN, "--", "sh", "-c", line], stderr=err, timeout=60,
                    env=suite.environment(ASANCOL_HALT="1", ASANCOL_REPORT=REPORT))
    expect(done.returncode, 99, "status")
    with open(f"{folder}/e", encoding="utf-8") as file:
        text = file.read()
    expect(text.index(HALTED) < text.index("later") < text.index("asancol: 1 report"), True, text)


def check_functions(suite: Suite, folder: str) -> None:
    """What the program says by its functions holds for it, and else is named."""
    for leaks, option, text in (("1", "--leaks=yes", "no reports, 1 suppressed; "),
                                ("0", "--leaks=yes", "no reports, 1 suppressed; "),
                                ("0", "--leaks=summary", "no reports; "), ("0", "--wait=5", "no reports; ")):
        program = make(folder, "gcc", PROGRAM + OF_PROGRAM.replace("DETECT", leaks))
        ran = suite.run(option, "--", program, ASANCOL_REPORT=REPORT)
        expect_ran(ran, 0, text, "start_deactivated=1 (__asan_default_options)",
                   "checks turned off by __asan_default_options:",
                   absent=["symbolize", "asancol: leaks:"])


MISMATCHES = """
#include <stdlib.h>
#include <new>
int main() {
    char *volatile one = new char; free(one);
    long *volatile two = new long; ::operator delete(two, sizeof(int));
    return 0; }
"""


def check_mismatches(suite: Suite, folder: str) -> None:
    """Families of functions are one option, and sizes another."""
    write_text(f"{folder}/m.cpp", MISMATCHES)
    call([f"{TOP}/recorder/asancol-c++", "-g", "-w", "m.cpp", "-o", "m"], cwd=folder, check=True)
    family, size = "alloc-dealloc-mismatch: ", "new-delete-type-mismatch: "
    rows: Tuple[Tuple[str, List[str], List[str]], ...] = (
        ("", [family, size], []),
        ("alloc_dealloc_mismatch=0", [size], [family]),
        ("new_delete_type_mismatch=no", [family], [size]),
        ("alloc_dealloc_mismatch=0:new_delete_type_mismatch=0", ["no reports; "], [family, size]),
    )
    for options, there, absent in rows:
        ran = suite.run("--", f"{folder}/m", ASANCOL_REPORT=REPORT, ASAN_OPTIONS=options)
        expect_ran(ran, 99 if there[0] != "no reports; " else 0, *there, absent=[*absent, "families"])


def check_mistakes(suite: Suite, folder: str) -> None:
    """A command in quotes, Valgrind, and AddressSanitizer's runtime that is preloaded, are named."""
    if shutil.which("valgrind"):
        expect_ran(suite.run("--", "valgrind", "-q", suite.program, "sound", ASANCOL_REPORT=REPORT), 98,
                   "programs: INCOMPLETE: its addresses are refused, as by Valgrind, under which it cannot run\n")
    expect_ran(suite.run("--", f"{suite.program} sound"), 127, " sound: no such file: the command is one word")
    expect_ran(suite.run("--", f"{folder}/not there", "x"), 127, "not there: No such file or directory")
    library = call(["gcc", "-print-file-name=libasan.so"], stdout=subprocess.PIPE, text=True, check=True).stdout.strip()
    if library != "libasan.so":
        ran = suite.run("--", "env", f"LD_PRELOAD={library}", suite.program, "sound", ASANCOL_REPORT=REPORT)
        expect_ran(ran, 1, "asancol: libasan.so.", " was in a process: ", "is it in LD_PRELOAD?")


def table() -> List[Tuple[str, str, str]]:
    """Returns the name of each option, what happens to it, and the value that it has here."""
    with open(f"{TOP}/common/asan_options.def", encoding="utf-8") as file:
        return re.findall(r'^OPTION\((\w+), (\w+), "([^"]*)"', file.read(), re.M)


def check_fates(suite: Suite, folder: str) -> None:
    """With another value than the one that it has here each option is named, except those on which no report
    depends."""
    rows = [it for it in table() if it[1] in ("FIXED", "HARMLESS")]
    for some in (rows[at:at + 30] for at in range(0, len(rows), 30)):
        words = ":".join(f"{name}=7" for name, _, _ in some)
        ran = suite.run("--", suite.program, "sound", ASAN_OPTIONS=words, ASANCOL_REPORT=REPORT)
        named = ", ".join(f"{name}=7" for name, fate, _ in some if fate == "FIXED")
        expect(re.findall(r"without effect here: (.*)", ran.err), [named] if named else [], "what is named")
    words = ":".join(f"{name}={value}" for name, fate, value in rows if fate == "FIXED")
    ran = suite.run("--", suite.program, "sound", ASAN_OPTIONS=words, ASANCOL_REPORT=REPORT)
    expect_ran(ran, 0, absent=["ASAN_OPTIONS"])


# The lists in compiler-rt's sources, and the words before each option.
LISTS = {"asan/asan_flags.inc": "ASAN_FLAG", "lsan/lsan_flags.inc": "LSAN_FLAG",
         "sanitizer_common/sanitizer_flags.inc": "COMMON_FLAG"}


def check_turned_off(suite: Suite, folder: str) -> None:
    """Each option that turns checks off is in one entry, which counts for --unchecked=error; a quiet run does not say
    it. If it is overruled, or has the value with which nothing is turned off, there is none."""
    write_text(f"{folder}/p.c", "int main(void) { return 0; }\n")
    call([f"{TOP}/recorder/asancol-cc", "p.c", "-o", "p"], cwd=folder, check=True)
    front = "not checked: checks turned off by ASAN_OPTIONS: "

    def ran(status: int, text: str, *argv: str, **settings: str) -> None:
        expect_ran(suite.run(*argv, "--", f"{folder}/p", ASANCOL_REPORT=REPORT, **settings), status, text)
    rows = [(name, value) for name, fate, value in table() if fate in ("RUN", "PROCESS") and value]
    expect(len(rows) > 20, True, "the options that turn checks off")
    words = [f"{name}={ {'0': '1', '1': '0', '2': '1'}[value]}" for name, value in rows]
    ran(0, f"{front}{' '.join(words)}\n", ASAN_OPTIONS=":".join(words))
    for word in words:
        ran(98, f"{front}{word}\n", "--unchecked=error", ASAN_OPTIONS=word)
    ran(0, "; all complete\n", "--unchecked=error", ASAN_OPTIONS=":".join(f"{name}={value}" for name, value in rows))
    ran(0, "; all complete\n", "--leaks=yes", ASAN_OPTIONS="detect_leaks=0:check_printf=0:check_printf=yes",
        LSAN_OPTIONS="detect_leaks=1")
    ran(0, "checks turned off by LSAN_OPTIONS: detect_leaks=0\n", LSAN_OPTIONS="detect_leaks=0")
    over = {"ASANCOL_ODR": "2", "ASANCOL_MAY_RETURN_NULL": "0", "ASANCOL_USE_AFTER_RETURN": "1"}
    options = "detect_odr_violation=0:allocator_may_return_null=1:detect_stack_use_after_return=0"
    ran(0, "; all complete\n", ASAN_OPTIONS=options, **over)
    ran(0, "not checked: globals defined twice (ASANCOL_ODR is not 2), requests for too much memory", ASANCOL_ODR="0",
        ASANCOL_MAY_RETURN_NULL="1")
    quiet = suite.run("-q", "--", f"{folder}/p", ASANCOL_REPORT=REPORT, ASAN_OPTIONS=words[0])
    expect_ran(quiet, 0, absent=["asancol"])
    ran(98, f"{front}{words[0]}\n", "-q", "--unchecked=error", ASAN_OPTIONS=words[0])
    suite.run("--json", f"{folder}/r", "--", f"{folder}/p", ASANCOL_REPORT=REPORT, ASAN_OPTIONS=words[0])
    quiet = suite.run_argv([REPORT, "-q", f"{folder}/r"])
    expect_ran(quiet, 0, absent=["asancol"])


def check_listed_options(suite: Suite, folder: str) -> None:
    """The table has each option in compiler-rt's lists, if check-suites has fetched its sources."""
    known = {name for name, _, _ in table()}
    for path, word in LISTS.items():
        with open(f"{SOURCES}/{path}", encoding="utf-8") as file:
            text = file.read()
        names = re.findall(rf"^{word}\([^,]*,\s*(\w+)", text, re.M)
        expect(len(names) > 10 and len(names), len(re.findall(rf"^{word}\(", text, re.M)), f"the options in {path}")
        expect(sorted(set(names) - known), [], path)


def check_same_options(suite: Suite, folder: str) -> None:
    """The table has each option that the runtimes of the compilers here print."""
    known = [name for name, _, _ in table()]
    expect(len(known), len(set(known)), "each once")
    write_text(f"{folder}/m.c", "int main(void) { return 0; }\n")
    for compiler in compilers_there():
        for kind in ("address", "leak"):
            call([compiler, f"-fsanitize={kind}", "m.c", "-o", "m"], cwd=folder, check=True)
            said = call(["./m"], cwd=folder, env={"ASAN_OPTIONS": "help=1", "LSAN_OPTIONS": "help=1"},
                        capture_output=True, text=True, check=False).stderr
            names = re.findall(r"^\t(\w+)$", said, re.M)
            expect(len(names) > 50 and sorted(set(names) - set(known)), [], f"{compiler} {kind}")


def tests(suite: Suite) -> None:
    if SANITIZE:
        leave_out("asan: the variables are asancol-run's own")
        return
    for name, run in (
        ("statuses", check_statuses), ("ends", check_ends), ("with undefined", check_with_undefined),
        ("named", check_named), ("asked", check_asked), ("symbolizer", check_symbolizer),
        ("leaks", check_leaks), ("functions", check_functions), ("death test", check_death_test),
        ("halts", check_halts), ("halts at once", check_at_once), ("exit at a halt", check_exit_at_halt),
        ("words of a halt come first", check_words_come_first), ("log path", check_log_path), ("no log", check_no_log),
        ("mismatches", check_mismatches), ("mistakes", check_mistakes), ("same options", check_same_options),
        ("relative suppressions", check_relative_rules), ("fates", check_fates), ("turned off", check_turned_off),
    ):
        suite.test(f"asan: {name}", run)
    suite.test("asan: nobody suppresses a halt", check_unanswered_halt)
    for compiler in compilers_there():
        suite.test(f"{compiler} asan: a suppressed halt", check_suppressed_halt, compiler)
    if os.path.isdir(SOURCES):
        suite.test("asan: listed options", check_listed_options)
    else:
        leave_out("asan: the sources of compiler-rt, which check-suites fetches, are not there")
