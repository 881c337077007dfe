"""A program that finds no run has its own, which begins once there is something to report."""

import os
import re
import shutil
import signal
import subprocess
import time
from typing import Any

from support import (
    CC, REPORT, RUN, Ran, Suite, compilers_there, expect, expect_in, expect_not_in, expect_ran, leave_out, wait_until,
    write_text,
)
from testing.programs import Started, call

PAST = "heap-buffer-overflow: store of 1 byte"


def run_alone(suite: Suite, *argv: str, **settings: str) -> Ran:
    return suite.run_argv(argv, ASANCOL_REPORT=REPORT, **{"ASANCOL_RUN": "", **settings})


def check_statuses(suite: Suite, folder: str) -> None:
    """It has the status, the streams and the words that it would have under asancol-run -q. Forked processes join."""
    program = suite.program
    expect_ran(run_alone(suite, program, "sound"), 0, absent=["asancol"])
    expect_ran(run_alone(suite, program, "past"), 99, PAST, "1 process, ")
    expect_ran(run_alone(suite, program, "child"), 99, "heap-use-after-free", "1 process, ")
    expect_ran(run_alone(suite, program, "execs", program, "past"), 99, PAST, "1 process, ")
    expect_ran(run_alone(suite, program, "kills_itself", "15"), -15)
    expect_ran(run_alone(suite, "sh", "-c", f"{program} past 2> {folder}/err; exec {program} sound"), 0, absent=[PAST])
    with open(f"{folder}/err", encoding="utf-8") as file:
        expect_in(file.read(), PAST)
    expect_ran(run_alone(suite, "bash", "-c", f"exec -a other {program} past", ASANCOL_RUN="1"), 99, PAST,
               "in store_past")
    expect_ran(run_alone(suite, RUN, "--", program, "past"), 99, PAST, "asancol: 1 report at 1 place; 1 process, ")
    ran = run_alone(suite, program, "past", ASANCOL_TRACE=f"{folder}/t.trace")
    expect((ran.err, os.path.exists(f"{folder}/t.trace")), ("", True), "a trace is written as ever")


def check_without(suite: Suite, folder: str) -> None:
    """Where no run can begin it ends before main, with 98 and a line that says why, unless its user wants otherwise."""
    write_text(f"{folder}/m.c", "#include <stdio.h>\nint main(void) { return puts(\"main\") < 0; }\n")
    call([CC, "m.c", "-o", "m"], cwd=folder, check=True)
    def refused(ran: Ran, *why: str) -> None:
        expect_ran(ran, 98, "asancol: not started: ", *why)
        expect(ran.out, "", "it ends before main")
    missing = "/proc/none/asancol-run"
    refused(run_alone(suite, f"{folder}/m", ASANCOL_RUN=missing),
            f"asancol-run can't be executed at {missing}: install it, set ASANCOL_RUN to its path, or")
    refused(run_alone(suite, f"{folder}/m", ASANCOL_RUN=f"{folder}/"), f"asancol-run can't be executed at {folder}/")
    write_text(f"{folder}/asancol-run", "")
    refused(run_alone(suite, f"{folder}/m", ASANCOL_RUN=f"{folder}/asancol-run"), "can't be executed")
    refused(run_alone(suite, "sh", "-c", f"ulimit -n 4; exec {folder}/m"), "Too many open files")
    refused(run_alone(suite, f"{folder}/m", ASANCOL_RUN_OPTIONS="--no-such"), "asancol-run did not begin", "--no-such")
    tried = run_alone(suite, "sh", "-c", f"ulimit -n 4; exec {folder}/m", ASANCOL_RUN="try")
    expect_ran(tried, 0, "asancol: not checked: ", "Too many open files")
    expect(tried.out, "main\n", "it was tried")
    expect_ran(run_alone(suite, suite.program, "past", ASANCOL_RUN="0"), 0, absent=["asancol"])


STARTS = """#include <sys/wait.h>
#include <unistd.h>
int main(int count, char **argv) {
    int status = 0;
    if (fork() == 0) return execv(argv[1], argv + 1);
    wait(&status);
    return WEXITSTATUS(status); }
"""


def check_options(suite: Suite, folder: str) -> None:
    """The run has the words of ASANCOL_RUN_OPTIONS, also where there is nothing to report."""
    result = f"{folder}/a b.jsonl"
    ran = run_alone(suite, suite.program, "sound", ASANCOL_RUN_OPTIONS=f"--json '{result}' --html {folder}/p.html")
    expect_ran(ran, 0, absent=["asancol"])
    expect((os.path.exists(result), os.path.exists(f"{folder}/p.html")), (True, True), "its files")
    expect_ran(run_alone(suite, suite.program, "past", ASANCOL_RUN_OPTIONS="--exitcode 7 --format=asan"), 7,
               "AddressSanitizer: heap-buffer-overflow")
    expect_ran(run_alone(suite, suite.program, "sound", ASANCOL_RUN_OPTIONS="-v"), 0, "complete, 2 events, 0 reports")
    program = make_lives(folder)
    for way, status in (("place", 0), ("range", 99)):  # a program that it becomes is of the same run
        ran = run_alone(suite, program, "calmly", program, way, ASANCOL_RUN_OPTIONS="-v")
        expect_ran(ran, status, "continued as another program", absent=["INCOMPLETE"])
    write_text(f"{folder}/starts.c", STARTS)
    call([CC, "-g", "starts.c", "-o", "starts"], cwd=folder, check=True)
    for way, status in (("sound", 0), ("past", 99)):  # a program that its child becomes
        for option in ("--timeout 60", "-v", f"--json '{folder}/%p.jsonl'"):
            ran = run_alone(suite, f"{folder}/starts", suite.program, way, ASANCOL_RUN_OPTIONS=option)
            expect_ran(ran, status, absent=["INCOMPLETE"])


# Runs each program with its words, as the process to which orphans come, and says how it ended and how many processes
# remain. It waits for no orphan. After an x on standard output a program gets a signal.
LEAVES = """
import ctypes, os, signal, subprocess, sys
ctypes.CDLL(None).prctl(36, 1)
for words in ([], ["quickly", "3"], ["handles"], ["forks"]):
    started = subprocess.Popen([sys.argv[1], *words], stdout=subprocess.PIPE, stderr=subprocess.DEVNULL)
    if words == ["handles"]:
        started.stdout.read(1)
        started.send_signal(signal.SIGTERM)
    status = started.wait()
    listed = subprocess.run(["ps", "-o", "stat=,args=", "--ppid", str(os.getpid())], stdout=subprocess.PIPE, text=True)
    print(status, len([line for line in listed.stdout.splitlines() if "ps -o" not in line]))
"""


def check_nothing_left(suite: Suite, folder: str) -> None:
    """Nothing is left of a run: no process, not even a zombie for a first process that minds none, and no file."""
    os.mkdir(f"{folder}/tmp")
    ran = run_alone(suite, "python3", "-c", LEAVES, make_lives(folder), TMPDIR=f"{folder}/tmp")
    expect(ran.out.splitlines(), ["0 0", "99 0", "-15 0", "0 0"], "what remains")
    expect(os.listdir(f"{folder}/tmp"), [], "files")


def check_as_it_was(suite: Suite, folder: str) -> None:
    """The environment says nothing of the run, also in what it executes."""
    ran = run_alone(suite, suite.program, "execs", "env")
    expect_not_in(ran.out, "ASANCOL_HUB")
    expect_not_in(ran.out, "ASANCOL_ROOT")


LOSES = """
#include <stdlib.h>
void *volatile kept;
int main(int count, char **argv) {
    int *volatile freed = malloc(40);
    free(freed);
    kept = malloc(30);
    kept = NULL;
    return (void)argv, count > 1 ? freed[3] : 0; }
"""


def check_leaks(suite: Suite, folder: str) -> None:
    """Leaks are reports by default, as with AddressSanitizer, unless they are turned off."""
    write_text(f"{folder}/l.c", LOSES)
    call([CC, "-g", "-w", "l.c", "-o", "l"], cwd=folder, check=True)
    leak = "Direct leak of 30 byte(s) in 1 object(s)"
    expect_ran(run_alone(suite, f"{folder}/l"), 99, leak)
    expect_ran(run_alone(suite, f"{folder}/l", "more"), 99, leak)
    for variable in ("ASAN_OPTIONS", "LSAN_OPTIONS"):
        expect_ran(run_alone(suite, f"{folder}/l", **{variable: "detect_leaks=0"}), 0, absent=["asancol", "leak"])
    expect_ran(run_alone(suite, f"{folder}/l", LSAN_OPTIONS="exitcode=23"), 23, leak)


PROGRAM = """
#include <stdlib.h>
#include <string.h>
#include <unistd.h>
int main(int count, char **argv) {
    char *volatile block = malloc(8);
    block[7 + count] = 1;
    return strcmp(argv[0], "other") == 0; }
"""


def make(folder: str, *flags: str) -> str:
    write_text(f"{folder}/p.c", PROGRAM)
    call([CC, "-g", *flags, "p.c", "-o", "p"], cwd=folder, stderr=subprocess.DEVNULL, check=True)
    return f"{folder}/p"


def check_static(suite: Suite, folder: str) -> None:
    expect_ran(run_alone(suite, make(folder, "-static"), "x"), 99, "heap-buffer-overflow: store of 1 byte")


def check_linked(suite: Suite, folder: str) -> None:
    """One that was linked to have none has it by a variable; under another run it is that one's."""
    for flags in ((), ("-static",)):
        program = make(folder, "--asancol-no-run", *flags)
        expect_ran(run_alone(suite, program, "x"), 0, absent=["asancol"])
        expect_ran(run_alone(suite, program, "x", ASANCOL_RUN="1"), 99, PAST, "1 process, ")
        expect_ran(suite.run("--", program, "x", ASANCOL_REPORT=REPORT), 99, PAST, "1 process, ")


LIVES = """
#define _GNU_SOURCE
#include <errno.h>
#include <fcntl.h>
#include <pthread.h>
#include <signal.h>
#include <stdio.h>
#include <stdlib.h>
#include <string.h>
#include <sys/syscall.h>
#include <sys/wait.h>
#include <unistd.h>
static void past(void) { char *volatile block = malloc(8); block[8] = 1; }
static void on_signal(int number) { (void)number; write(1, "got it\\n", 7); }
static void *reads(void *unused) { (void)unused; return getchar() == 0 ? NULL : NULL; }
static int is(const char *word, const char *name) { return strcmp(word, name) == 0; }
int main(int count, char **argv) {
    const char *way = count > 1 ? argv[1] : "";
    if (is(way, "place")) {
        int is_alone = wait(NULL) < 0 && errno == ECHILD, first = dup(0);
        printf("%d %d %d %d %d %d\\n", getpid(), getppid(), getsid(0), getpgrp(), is_alone, first);
    } else if (is(way, "forks")) {
        for (int i = 0; i < 100; i++)
            if (fork() == 0) return 0;
        while (wait(NULL) > 0) continue;
    } else if (is(way, "death")) {
        if (fork() == 0) past();
        while (wait(NULL) > 0) continue;
    } else if (is(way, "closes")) {
        for (int i = atoi(argv[2]); i < 1000; i++) close(i);
        past();
    } else if (is(way, "range")) {
        syscall(SYS_close_range, 3, ~0u, 0);
        past();
    } else if (is(way, "crowd")) {
        pid_t children[100];
        for (int i = 0; i < 100; i++)
            if ((children[i] = fork()) == 0) for (;;) pause();
        for (int i = 0; i < 100; i++) kill(children[i], SIGKILL);
        while (wait(NULL) > 0) continue;
    } else if (is(way, "handles")) {
        sigset_t blocked, before;
        sigemptyset(&blocked);
        sigaddset(&blocked, SIGUSR1);
        sigprocmask(SIG_BLOCK, &blocked, &before);
        signal(SIGUSR1, on_signal);
        write(1, "x", 1);
        sigsuspend(&before);
    } else if (is(way, "daemon")) {
        if (fork() > 0) return 0;
        setsid();
        for (int i = 0; i < 2; i++) dup2(open("/dev/null", O_RDWR), i);
        dup2(open(argv[2], O_WRONLY | O_CREAT | O_APPEND, 0600), 2);
        sleep(atoi(argv[3]));
        past();
    } else if (is(way, "reaps")) {
        if (fork() == 0) _exit(0);
        while (wait(NULL) > 0) continue;
        past();
    } else if (is(way, "leaves")) {
        if (daemon(1, 1) != 0) return 1;
        past();
    } else if (is(way, "threads")) {
        pthread_t thread;
        pthread_create(&thread, NULL, reads, NULL);
        printf("flushed");
        past();
    } else if (is(way, "quickly")) {
        past();
        _exit(atoi(argv[2]));
    } else if (is(way, "copies")) {
        char text[100];
        ssize_t length = read(0, text, sizeof text);
        write(1, text, length > 0 ? (size_t)length : 0);
        fprintf(stderr, "on error\\n");
        past();
    } else if (is(way, "becomes") || is(way, "calmly")) {
        if (is(way, "becomes")) past();
        execvp(argv[2], argv + 2);
    } else if (is(way, "waits")) {
        past();
        write(1, "x", 1);
        pause();
    }
    return 0; }
"""


def make_lives(folder: str) -> str:
    write_text(f"{folder}/l.c", LIVES)
    call([CC, "-g", "-w", "-pthread", "l.c", "-o", "l"], cwd=folder, check=True)
    return f"{folder}/l"


def start_alone(suite: Suite, *argv: str, **given: Any) -> Started:
    return Started(argv, env=suite.environment(ASANCOL_RUN="", ASANCOL_REPORT=REPORT), **given)


def check_place(suite: Suite, folder: str) -> None:
    """The program is the process that was started: its number, parent, session and group; it has no child, and no
    descriptor that its parent has not given to it."""
    program = make_lives(folder)
    started = start_alone(suite, program, "place", stdout=subprocess.PIPE, stdin=subprocess.DEVNULL)
    out = started.communicate()[0].decode()
    expect(out.split(), [str(it) for it in (started.pid, os.getpid(), os.getsid(0), os.getpgrp(), 1, 3)], "its place")
    argv = ["sh", "-c", f"{program} place & echo $!; wait"]
    for ran in (run_alone(suite, *argv), suite.run("--", *argv, ASANCOL_REPORT=REPORT)):
        expect_ran(ran, 0)
        expect(len(set(re.findall(r"(?m)^\d+", ran.out))), 1, "how many numbers")


def check_streams(suite: Suite, folder: str) -> None:
    """Whoever waits for it has all of the verdict by then."""
    program = make_lives(folder)
    with open(f"{folder}/err", "wb") as err:
        started = start_alone(suite, program, "copies", stdin=subprocess.PIPE, stdout=subprocess.PIPE, stderr=err)
        assert started.stdin and started.stdout
        started.stdin.write(b"some text")
        started.stdin.close()
        expect(started.wait(), 99, "its status")
        with open(f"{folder}/err", encoding="utf-8") as file:
            text = file.read()
        expect(started.stdout.read(), b"some text", "standard output")
        started.stdout.close()
    expect_in(text, "on error\n")
    expect_in(text, "1 process, ")
    expect_ran(run_alone(suite, "sh", "-c", f"{program} threads < /dev/zero | cat; {program} threads"), 99, PAST)
    expect_in(run_alone(suite, "sh", "-c", f"sleep 5 | {program} threads | cat").out, "flushed")


def check_closed(suite: Suite, folder: str) -> None:
    program = make_lives(folder)
    for first in ("3", "0"):
        expect_ran(run_alone(suite, program, "closes", first), 99, PAST, "1 process, ")
    expect_ran(run_alone(suite, program, "range"), 99, PAST, "1 process, ", "all complete")


def check_crowd(suite: Suite, folder: str) -> None:
    """Many children that have nothing to report are nothing to report."""
    ran = run_alone(suite, make_lives(folder), "crowd")
    expect((ran.status, ran.err), (0, ""), "many children")


def check_ways_out(suite: Suite, folder: str) -> None:
    """Each way out of the process has the status of the run; a program that replaces it joins a run with a report."""
    program = make_lives(folder)
    expect_ran(run_alone(suite, program, "quickly", "3"), 99, PAST)
    expect_ran(run_alone(suite, program, "becomes", program, "place"), 99, PAST, "2 processes, ")
    expect_ran(run_alone(suite, program, "becomes", "env", "-i", program, "place"), 99, PAST)
    expect_ran(run_alone(suite, program, "becomes", "/bin/false"), 1)
    expect_ran(run_alone(suite, program, "quickly", "3", ASAN_OPTIONS="exitcode=7"), 7, "AddressSanitizer: heap-buffer")
    expect_ran(run_alone(suite, program, "quickly", "3", ASANCOL_HALT="1"), 99, "heap-buffer-overflow")
    expect_ran(run_alone(suite, program, "death", ASAN_OPTIONS="halt_on_error=1"), 0, "AddressSanitizer: heap-buffer")
    expect_ran(run_alone(suite, program, "death", ASAN_OPTIONS="detect_leaks=0"), 99, "AddressSanitizer: heap-buffer")


def check_afterwards(suite: Suite, folder: str) -> None:
    """A process that starts once the run of its ancestor is over has its own; so has a run inside a run."""
    program = make_lives(folder)
    write_text(f"{folder}/first", f"sh {folder}/later $$ > /dev/null 2>&1 &")
    write_text(f"{folder}/later", "while kill -0 $1; do sleep 0.1; done; sleep 0.5\n"
                                  f"{program} quickly 3 2> {folder}/log; echo $? >> {folder}/log\n")
    run_alone(suite, program, "becomes", "sh", f"{folder}/first")
    def has_status() -> bool:
        with open(f"{folder}/log", encoding="utf-8") as file:
            return file.read().endswith("\n99\n")
    wait_until(lambda: os.path.exists(f"{folder}/log") and has_status(), "the later run")
    expect_ran(run_alone(suite, program, "becomes", RUN, "--", program, "quickly", "0"), 99, PAST)


def check_ended(suite: Suite, folder: str) -> None:
    """A signal comes to the program, whose status says so, and nobody has its output open afterwards."""
    program = make_lives(folder)
    for number, way, status, out in (
        (signal.SIGTERM, "handles", -signal.SIGTERM, b""), (signal.SIGKILL, "handles", -signal.SIGKILL, b""),
        (signal.SIGUSR1, "handles", 0, b"got it\n"), (signal.SIGTERM, "waits", 99, b""),
        (signal.SIGKILL, "waits", -signal.SIGKILL, b""),
    ):
        started = start_alone(suite, program, way, stdout=subprocess.PIPE, stderr=subprocess.PIPE)
        expect(started.stdout.read(1) if started.stdout else b"", b"x", "it has begun")
        started.send_signal(signal.SIGSTOP)
        expect(os.WIFSTOPPED(os.waitpid(started.pid, os.WUNTRACED)[1]), True, "it stops")
        started.send_signal(signal.SIGCONT)
        started.send_signal(number)
        output, errors = started.communicate()
        expect((output, started.returncode), (out, status), f"signal {number}, {way}")
        expect(PAST in errors.decode(), way == "waits", f"a report at signal {number}")


def check_ended_at_verdict(suite: Suite, folder: str) -> None:
    """A signal that comes while the program waits for its verdict waits as well, and a second one ends it. Before that
    it waits for its first report, but no longer than 2 seconds."""
    program = make_lives(folder)
    slow = f"{folder}/slow"
    write_text(slow, f"#!/bin/sh\nsleep 3\ntouch {folder}/begun\nuntil test -e {folder}/go; do sleep 0.1; done\n"
                     f"exec {REPORT} \"$@\"\n")
    os.chmod(slow, 0o755)
    for number, again, status in ((signal.SIGTERM, False, 99), (signal.SIGINT, False, 99), (signal.SIGTERM, True, -15)):
        argv = [program, "quickly" if number == signal.SIGTERM else "threads", "3"]
        with Started(argv, env=suite.environment(ASANCOL_RUN="", ASANCOL_REPORT=slow), stdin=subprocess.DEVNULL,
                     stdout=subprocess.DEVNULL, stderr=subprocess.PIPE) as started:
            wait_until(lambda: os.path.exists(f"{folder}/begun"), "the verdict")
            started.send_signal(number)
            time.sleep(0.5)
            expect(started.poll(), None, "it waits")
            if again:
                started.send_signal(number)
                expect(started.wait(), status, "its status")
            write_text(f"{folder}/go", "")
            errors = started.communicate()[1].decode()
            expect(started.returncode, status, f"its status after {number}: {errors}")
            expect_in(errors, PAST)
        for name in ("begun", "go"):
            os.unlink(f"{folder}/{name}")


def check_daemon(suite: Suite, folder: str) -> None:
    """A program whose child lives on does not wait for that, nor does who reads what it prints. What the child does
    goes to the child's own standard error."""
    program = make_lives(folder)
    began = time.monotonic()
    expect_ran(run_alone(suite, program, "daemon", f"{folder}/log", "6"), 0, absent=["asancol"])
    expect(time.monotonic() - began < 5, True, "it does not wait")
    def has_report() -> bool:
        with open(f"{folder}/log", encoding="utf-8") as file:
            return PAST in file.read()
    wait_until(has_report, "the verdict of the daemon")


def check_habits(suite: Suite, folder: str) -> None:
    """A process to which orphans come, as the first one of a container; a child that its parent leaves at once; a
    debugger; and few descriptors, with which no run can begin."""
    program = make_lives(folder)
    as_reaper = f"import ctypes, os; ctypes.CDLL(None).prctl(36, 1); os.execv({program!r}, [{program!r}, 'reaps'])"
    expect_ran(run_alone(suite, "python3", "-c", as_reaper), 99, PAST)
    for _ in range(5):
        left = run_alone(suite, program, "leaves")
        expect_in(left.err, PAST)
        expect_not_in(left.err, "never connected")
    for limit in (8, 12):
        ran = run_alone(suite, "bash", "-c", f"ulimit -n {limit}; exec {program} sound")
        expect((ran.status, ran.err), (0, ""), f"{limit} descriptors")
    expect_ran(run_alone(suite, "bash", "-c", f"ulimit -n 12; exec {program} quickly 0"), 98, "too few descriptors",
               absent=[PAST])
    debugger = ["gdb", "-q", "-batch", "-ex", "run", "-ex", "quit", "--args"]
    if shutil.which("gdb") is not None and "exited normally" in run_alone(suite, *debugger, "true").out:
        expect_in(run_alone(suite, *debugger, program, "quickly", "0").out, "exited with code 0143")


# Executes a file by other names than its own: as a process to which orphans come, or not.
NAMES = """
import ctypes, os, sys
is_reaper, how, program = sys.argv[1:4]
if is_reaper == "1":
    ctypes.CDLL(None).prctl(36, 1)
if how == "memory":
    kept = os.memfd_create("x", 0)
    with open(program, "rb") as file:
        os.write(kept, file.read())
    os.execve(kept, ["name", "x"], os.environ)
if how == "removed":
    kept = os.open(program, os.O_RDONLY)
    os.unlink(program)
    os.execve(kept, ["-gone", "x"], os.environ)
if how == "moved":
    os.execve(os.open(program, os.O_RDONLY), ["relative/name", "x"], os.environ)
if how == "linker":
    os.execv("/lib64/ld-linux-x86-64.so.2", ["ld.so", program, "x"])
os.execv(program, [how, "x"])
"""

NAMED = """
#include <stdio.h>
#include <stdlib.h>
#include <unistd.h>
int main(int count, char **argv) {
    char *volatile block = malloc(8);
    block[7 + count] = 1;
    printf("<%s>", argv[0]);
    return dup(0) != 3; }
"""


def check_names(suite: Suite, folder: str) -> None:
    """The file itself runs, with its words, whatever they say: also where orphans come to the process."""
    write_text(f"{folder}/n.c", NAMED)
    write_text(f"{folder}/names.py", NAMES)
    call([CC, "-g", "-w", "n.c", "-o", "n"], cwd=folder, check=True)
    for is_reaper in ("0", "1"):
        for how in ("ls", "-sh", "/proc/none/p", "moved", "linker", "memory", "removed"):
            program = f"{folder}/n"
            if how == "removed":
                program = shutil.copy(program, f"{folder}/removed")
            name = {"moved": "relative/name", "linker": program, "memory": "name", "removed": "-gone"}.get(how, how)
            ran = run_alone(suite, "python3", f"{folder}/names.py", is_reaper, how, program)
            expect_ran(ran, 99, "heap-buffer-overflow: store of 1 byte", "1 process, ")
            expect(ran.out, f"<{name}>", f"{how}, {is_reaper}")


SHUT_OFF = """
#define _GNU_SOURCE
#include <linux/filter.h>
#include <linux/seccomp.h>
#include <sched.h>
#include <signal.h>
#include <stddef.h>
#include <stdlib.h>
#include <string.h>
#include <sys/prctl.h>
#include <sys/resource.h>
#include <sys/syscall.h>
#include <unistd.h>
static void refuse(unsigned how) {
    struct sock_filter filter[] = {
        BPF_STMT(BPF_LD + BPF_W + BPF_ABS, offsetof(struct seccomp_data, nr)),
        BPF_JUMP(BPF_JMP + BPF_JEQ + BPF_K, SYS_socket, 2, 0), BPF_JUMP(BPF_JMP + BPF_JEQ + BPF_K, SYS_connect, 1, 0),
        BPF_STMT(BPF_RET + BPF_K, SECCOMP_RET_ALLOW), BPF_STMT(BPF_RET + BPF_K, how)};
    struct sock_fprog program = {sizeof filter / sizeof *filter, filter};
    if (prctl(PR_SET_NO_NEW_PRIVS, 1, 0, 0, 0) || prctl(PR_SET_SECCOMP, SECCOMP_MODE_FILTER, &program)) _exit(9); }
int main(int count, char **argv) {
    struct rlimit none = {3, 3};
    volatile char used = 0;
    char *volatile block = malloc(8);
    free(block);
    if (strcmp(argv[1], "error") == 0) refuse(SECCOMP_RET_ERRNO | 1);
    if (strcmp(argv[1], "kill") == 0) refuse(SECCOMP_RET_KILL);
    if (strcmp(argv[1], "root") == 0 && (unshare(CLONE_NEWUSER | CLONE_NEWNET) || chroot(argv[2]))) return 9;
    if (strcmp(argv[1], "closed") == 0) for (int i = 3; i < 1100; i++) close(i);
    if (strcmp(argv[1], "limit") == 0) {
        for (int i = 3; i < 1100; i++) syscall(SYS_close, i);
        setrlimit(RLIMIT_NOFILE, &none); }
    if (strcmp(argv[1], "killed") == 0) kill(-1, SIGKILL);
    if (count > 3) used = block[0];
    return 3; }
"""


def check_shut_off(suite: Suite, folder: str) -> None:
    """It ends with the status of its run where it could not connect any more, and with 98 where no answer can come."""
    write_text(f"{folder}/s.c", SHUT_OFF)
    call([CC, "-g", "-w", "s.c", "-o", "s"], cwd=folder, check=True)
    quiet = {"ASAN_OPTIONS": "detect_leaks=0"}
    for way in ("error", "kill", "root", "closed"):
        ran = run_alone(suite, f"{folder}/s", way, folder, **quiet)
        if ran.status == 9:
            leave_out(f"a program that has shut itself off: {way}")
            continue
        expect_ran(ran, 3, absent=["asancol"])
        expect_ran(run_alone(suite, f"{folder}/s", way, folder, "bad", **quiet), 99, "AddressSanitizer: heap-use-after")
    expect_ran(run_alone(suite, f"{folder}/s", "limit", folder, **quiet), 3, absent=["asancol"])
    expect_ran(run_alone(suite, f"{folder}/s", "limit", folder, "bad", **quiet), 98, "the end was not checked: ")
    argv = ["unshare", "-pf", "--mount-proc", "sh", "-c", f"{folder}/s killed {folder} bad; exit $?"]
    if run_alone(suite, *argv[:3], "true").status != 0:
        leave_out("a run that is killed: no namespaces")
    else:
        expect_ran(run_alone(suite, *argv, **quiet), 98, "its run has ended before it, or was ended")


UNDEFINED = """
#include <pthread.h>
#include <stdlib.h>
#include <unistd.h>
#include <sanitizer/common_interface_defs.h>
static void on_death(void) { write(1, "death\\n", 6); }
static void *waits(void *unused) { for (;;) pause(); return unused; }
int main(int count, char **argv) {
    pthread_t thread;
    volatile int most = 2147483647;
    char *volatile block = malloc(8);
    __sanitizer_set_death_callback(on_death);
    if (count > 2) pthread_create(&thread, NULL, waits, NULL);
    if (count > 1) block[8] = 1;
    most += count;
    return argv == NULL; }
"""


def check_undefined(suite: Suite, folder: str) -> None:
    """One that UndefinedBehaviorSanitizer ends by a call of its own ends with the run's status, after its report. What
    it would end with otherwise stays, and the program's callback is called, as by Clang's runtime of both."""
    write_text(f"{folder}/u.c", UNDEFINED)
    error = "runtime error: signed integer overflow"
    for compiler in compilers_there():
        argv = [CC, "-g", "-w", "-pthread", "-fsanitize=address,undefined", "-fno-sanitize-recover", "u.c", "-o", "u"]
        if call(argv, cwd=folder, capture_output=True, env={**os.environ, "ASANCOL_CC": compiler}).returncode != 0:
            leave_out(f"UndefinedBehaviorSanitizer of {compiler} is not there")
            continue
        program = f"{folder}/u"
        for words in (["bad"], ["bad", "in threads"]):
            ran = run_alone(suite, program, *words)
            expect_ran(ran, 99, error, "AddressSanitizer: heap-buffer-overflow", " 1 process", "all complete")
            expect((ran.out, ran.err.index("heap-buffer") < ran.err.index(error)), ("death\n", True), ran.err)
            expect_ran(suite.run("--", program, *words, ASANCOL_REPORT=REPORT), 99, PAST, "all complete")
        for options, status in (("", 1), ("exitcode=42", 42), ("abort_on_error=1", -signal.SIGABRT)):
            expect_ran(run_alone(suite, program, UBSAN_OPTIONS=options), status, error)
            expect_ran(run_alone(suite, program, "bad", UBSAN_OPTIONS=options), 99, error, "heap-buffer-over")
        expect_ran(run_alone(suite, program), 1, error, absent=["asancol"])


ENDINGS = """
#define _GNU_SOURCE
#include <errno.h>
#include <sched.h>
#include <signal.h>
#include <stdio.h>
#include <stdlib.h>
#include <string.h>
#include <sys/time.h>
#include <sys/wait.h>
#include <unistd.h>
static int ends;
static void handle(int number) { if (ends) exit(5); }
static void tick(int microseconds) {
    struct sigaction action = {.sa_handler = handle};
    struct itimerval each = {{0, microseconds}, {0, microseconds}};
    sigaction(SIGALRM, &action, NULL);
    setitimer(ITIMER_REAL, &each, NULL); }
static void in_network(void) {
    int status;
    if (unshare(CLONE_NEWNET | (geteuid() != 0 ? CLONE_NEWUSER : 0)) != 0) exit(9);
    if (fork() == 0) { if (fork() == 0) _exit(4); wait(&status); _exit(WEXITSTATUS(status)); }
    wait(&status);
    exit(WEXITSTATUS(status) + 1); }
static void waits_for_all(void) {
    int status, count = 0;
    if (fork() == 0) _exit(5);
    while (waitpid(-1, &status, __WALL) > 0) count++;
    exit(count == 1 && errno == ECHILD ? WEXITSTATUS(status) : 8); }
int main(int count, char **argv) {
    ends = strcmp(argv[1], "handler") == 0;
    if (strcmp(argv[1], "network") == 0) in_network();
    if (strcmp(argv[1], "waits") == 0) waits_for_all();
    if (!ends && fork() == 0) { for (int i = 0; i < 3; i++) close(i); sleep(3); _exit(0); }
    tick(ends ? 5000 : 100);
    for (int i = 0; i < 100000 || ends; i++) free(malloc(100));
    return 5; }
"""


def check_endings(suite: Suite, folder: str) -> None:
    """A correct program ends as alone: beside a child that lives and under signals, in a handler that has interrupted
    malloc, with children in another network, and if it waits for any child, also if it is static."""
    write_text(f"{folder}/e.c", ENDINGS)
    for flag, ways in (("-O0", ["daemon", "handler", "network", "waits"]), ("-static", ["daemon", "waits"])):
        call([CC, "-g", "-w", flag, "e.c", "-o", "e"], cwd=folder, check=True)
        for way in ways:
            ran = run_alone(suite, "timeout", "20", f"{folder}/e", way)
            if ran.status == 9:
                leave_out("children in another network: the system makes none")
            else:
                expect((way, ran.status), (way, 5), ran.err)
                expect(way == "handler" or ran.err == "", True, ran.err)


HARNESS = """
#include <sanitizer/asan_interface.h>
#include <stdio.h>
#include <stdlib.h>
static char *volatile held;
static __attribute__((noinline)) void lose(void) { held = malloc(24); held = NULL; }
int main(void)
{
    void *frames[8];
    int thread = 0;
    held = malloc(8);
    size_t made = __asan_get_alloc_stack(held, frames, 8, &thread);
    free(held);
    size_t freed = __asan_get_free_stack(held, frames, 8, &thread);
    lose();
    return printf("%d %d\\n", made > 1, freed > 1) < 0;
}
"""


def check_harness(suite: Suite, folder: str) -> None:
    """A harness gets the whole output of a program that leaks, which knows the stack traces of its blocks."""
    write_text(f"{folder}/h.c", HARNESS)
    call([CC, "-g", "h.c", "-o", "h"], cwd=folder, check=True)
    ran = run_alone(suite, f"{folder}/h")
    expect_ran(ran, 99, "24 byte(s)", "in lose")
    expect(ran.out, "1 1\n", "what it printed to a pipe")


def tests(suite: Suite) -> None:
    for name, run in (
        ("statuses", check_statuses), ("leaks", check_leaks), ("without asancol-run", check_without),
        ("static", check_static), ("linked", check_linked), ("place", check_place), ("streams", check_streams),
        ("closed", check_closed), ("crowd", check_crowd), ("ways out", check_ways_out),
        ("afterwards", check_afterwards), ("ended", check_ended), ("ended at the verdict", check_ended_at_verdict),
        ("daemon", check_daemon), ("habits", check_habits), ("names", check_names), ("shut off", check_shut_off),
        ("ended by UndefinedBehaviorSanitizer", check_undefined), ("options", check_options),
        ("nothing left", check_nothing_left), ("as it was", check_as_it_was), ("harness", check_harness),
        ("endings", check_endings),
    ):
        suite.test(f"own run: {name}", run)
