"""Processes that end where the recorder does not see it: by SIGKILL, or by an exit in code that it does not know."""

import os
import random
import re
import shutil
import signal
import time
from typing import Any, List

from support import CC, REPORT, TESTS, Later, Suite, expect, expect_ran, finish, leave_out
from testing.programs import NO_SETTINGS, call

NOT_CHECKED = "; not checked: libplain.so"
SEEN = f"1 ended abruptly{NOT_CHECKED}"
# How often a process is killed at a moment that nobody chooses.
TIMES = 100


def build(compiler: str, folder: str, program: str) -> None:
    """Builds the program by this compiler, beside a library that is not recorded."""
    os.mkdir(folder)
    library = f"{folder}/libplain.so"
    call(["cc", "-shared", "-fPIC", f"{TESTS}/plain.c", "-o", library], check=True)
    argv = [CC, "-g", "-O1", "-pthread", f"{TESTS}/abrupt.c", library, "-o", program]
    call(argv, check=True, env={**os.environ, "ASANCOL_CC": compiler})


# The library's calls are not seen.
UNSEEN = {"ASANCOL_LIBRARIES": "0"}
LIBRARIES = "calls by libraries (ASANCOL_LIBRARIES=0)"


def check_exits(suite: Suite, folder: str, program: str) -> None:
    """By a call of the system, or by one of the C library that is seen or not."""
    for way, settings in (("call", NO_SETTINGS), ("exit", UNSEEN)):
        ran = suite.run("--", program, way, "0", **settings)
        expect_ran(ran, 0, "ended abruptly, with status 0: seen up to there", "1 ended abruptly; not checked: ")
        ran = suite.run("--", program, way, "3", **settings)
        expect_ran(ran, 3, "ended abruptly, with status 3: seen up to there")
    for status in (0, 3):
        ran = suite.run("--", program, "exit", str(status))
        expect_ran(ran, status, f"no reports; 1 process, 2 events{NOT_CHECKED}", absent=["abruptly"])
    ran = suite.run("--", program, "child", "4")
    expect_ran(ran, 0, f"no reports; 2 processes, 2 events{NOT_CHECKED}", absent=["abruptly"])
    ran = suite.run("--", program, "child", "4", **UNSEEN)
    expect_ran(ran, 0, "ended abruptly", ": seen up to there", "2 processes", "1 ended abruptly; not checked: ")


def check_bug(suite: Suite, folder: str, program: str) -> None:
    """Earlier findings count, with its line, and all outputs name the end."""
    outputs = [f"--{kind}={folder}/{kind}" for kind in ("json", "junit", "sarif", "html")]
    ran = suite.run(*outputs, "--", program, "bug", ASANCOL_REPORT=REPORT)
    expect_ran(ran, 99, "heap-buffer-overflow: store of 1 byte", "in store_past", "abrupt.c:", SEEN)
    wanted = {"json": '"abrupt":true', "junit": "seen up to there", "sarif": "seen up to there", "html": "abruptly"}
    for kind, text in wanted.items():
        with open(f"{folder}/{kind}", encoding="utf-8") as file:
            expect(text in file.read(), True, f"{kind}: {text}")
    again = suite.run_argv([REPORT, f"{folder}/json"])
    expect((again.status, SEEN in again.out + again.err), (1, True), again.out + again.err)
    ran = suite.run(*outputs, "--", program, "call", ASANCOL_REPORT=REPORT)
    expect_ran(ran, 0, "with status 0: seen up to there", SEEN)


def check_burst(suite: Suite, folder: str, program: str) -> None:
    """Either all of a burst was seen, or it is said that its end was not."""
    for _ in range(5):
        ran = suite.run("--", program, "burst", "1000", ASANCOL_REPORT=REPORT)
        found = re.search(r"(\d+) reports? at 1 place; 1 process, (\d+) events", ran.err)
        expect((ran.status, found is not None), (99, True), ran.err)
        reports = int(found[1]) if found else 0
        if reports == 1000:
            expect_ran(ran, 99, SEEN)
        else:
            expect_ran(ran, 99, f"INCOMPLETE: ended abruptly, with status 0: its last events were not seen, "
                       f"at least {1000 - reports}")


def check_sandbox(suite: Suite, folder: str, program: str) -> None:
    """A filter of system calls would end a process where the recorder makes a call of its own for a bug, or refuses
    that: the bug is found by others."""
    for way in ("kill", "thread", "trap", "errno", "log", "strict"):
        ran = suite.run("--", program, "sandbox", way, ASANCOL_REPORT=REPORT)
        expect_ran(ran, 99, "in store_past", "1 report at 1 place; 2 processes, ", absent=["INCOMPLETE"])


def check_forbidden(suite: Suite, folder: str, program: str) -> None:
    """A filter ends a process in a call that the recorder makes where the program makes none: what the process, or the
    program that it starts, would have done is not seen."""
    for forbidden, what in (("send", "allocate"), ("link", "spawn"), ("link", "vfork"), ("link", "exec")):
        ran = suite.run("--", program, "forbidden", forbidden, what, ASANCOL_REPORT=REPORT)
        expect_ran(ran, 98, "ended in a system call of the recorder", "; 1 INCOMPLETE")
        ran = suite.run("--", program, "forbidden", "none", what, ASANCOL_REPORT=REPORT)
        expect_ran(ran, 0 if what == "vfork" else 99, absent=["INCOMPLETE"])
    for forbidden in ("send", "link"):
        expect_ran(suite.run("--", program, "forbidden", forbidden, "nothing"), 0, absent=["INCOMPLETE"])


def check_spawns(suite: Suite, folder: str, program: str) -> None:
    """A library forks and executes: what runs on as another program did not end, also if nobody sees that it does. All
    have one line, if there is any."""
    ran = suite.run("--", program, "spawns", "9", "/bin/true")
    expect((ran.status, ran.err.count("ended abruptly, as by") <= 1), (0, True), ran.err)
    line = f"{program} spawns 3 '{shutil.which('sleep')}'"
    ran = suite.run("--wait", "0", "--", "sh", "-c", line)
    expect_ran(ran, 0, "4 processes", NOT_CHECKED, absent=["ended abruptly", "INCOMPLETE"])
    ran = suite.run("-v", "--", program, "spawns", "1", program)
    expect_ran(ran, 0, "complete: continued as another program", "3 processes", NOT_CHECKED,
               absent=["ended abruptly", "INCOMPLETE"])
    ran = suite.run("-v", "--", program, "spawns", "1", program, **UNSEEN)
    expect_ran(ran, 0, "ran another program, by an exec in a library", "3 processes", LIBRARIES,
               absent=["ended abruptly", "INCOMPLETE"])


def check_daemon(suite: Suite, folder: str, program: str) -> None:
    """The parent ends in a library, which is seen or not, and the daemon is recorded."""
    ran = suite.run("--", program, "daemon", ASANCOL_REPORT=REPORT)
    expect_ran(ran, 99, "in store_past", "2 processes", NOT_CHECKED, absent=["abruptly"])
    ran = suite.run("--", program, "daemon", ASANCOL_REPORT=REPORT, **UNSEEN)
    expect_ran(ran, 99, "in store_past", "2 processes", "1 ended abruptly; not checked: ")


def killed(suite: Suite, argv: List[str], least: float, most: float, **settings: Any) -> List[str]:
    """Runs a program, and kills it some time after it is ready: the status, and the output."""
    line = f"sh -c 'echo $$; exec {' '.join(argv)}' & wait $!; true"
    started = suite.start("--", "setsid", "sh", "-c", line, **settings)
    number = int(started.stdout.readline() if started.stdout else 0)
    if started.stdout and argv[1] in ("churn", "stores"):
        started.stdout.readline()
    time.sleep(random.uniform(least, most))
    try:
        os.kill(number, signal.SIGKILL)
    except ProcessLookupError:
        pass
    ran = finish(started)
    return [str(ran.status), ran.out, ran.err]


def check_threads(suite: Suite, folder: str, program: str) -> None:
    """Killed in the middle of its mallocs: there is never a report, and all that needs a check was seen."""
    for _ in range(TIMES):
        status, _, said = killed(suite, [program, "churn"], 0, 0.03)
        expect("no reports" in said, True, said)
        # It is hardly ever killed just where it tries whether a filter lets it send.
        expect((status, SEEN in said), ("98", False) if "INCOMPLETE" in said else ("0", True), said)


def check_stores(suite: Suite, folder: str, program: str) -> None:
    """Never complete if a store that was made has no report."""
    whole = 0
    for _ in range(TIMES):
        _, out, said = killed(suite, [program, "stores"], 0.005, 0.03, ASANCOL_REPORT=REPORT)
        made = max((int(line) for line in out.split() if line.isdigit()), default=0)
        found = re.search(r"asancol: (\d+) reports?", said)
        reports = int(found[1]) if found else 0
        if SEEN in said:
            whole += 1
            expect(reports >= made, True, f"{made} stores were made: {said}")
        else:
            expect("INCOMPLETE" in said, True, said)
    expect(whole > 0, True, "that one was complete")


def check_forks(suite: Suite, folder: str, program: str, way: str) -> None:
    """Killed in the middle of forks and execs: there is no false report, and missing parts are named."""
    for _ in range(20):
        status, _, said = killed(suite, [program, way], 0, 0.03)
        expect("no reports" in said, True, said)
        expect(status, "98" if "INCOMPLETE" in said else "0", said)


def check_idle(suite: Suite, folder: str, program: str) -> None:
    ran = suite.run("--", "timeout", "-s", "KILL", "0.4", suite.program, "sleeps", "30")
    expect_ran(ran, -9, "ended abruptly", ": seen up to there", "all complete, 1 ended abruptly")


def tests(suite: Suite) -> None:
    suite.test("abrupt idle", check_idle, "")
    for compiler in ("gcc", "clang"):
        if shutil.which(compiler) is None:
            leave_out(f"{compiler} is not there")
            continue
        folder = f"{suite.folder}/{compiler}"
        program = Later(f"{folder}/abrupt", build, compiler, folder, f"{folder}/abrupt")
        suite.test(f"{compiler} abrupt exits", check_exits, program)
        suite.test(f"{compiler} abrupt end after a bug", check_bug, program)
        suite.test(f"{compiler} abrupt end after a burst", check_burst, program)
        suite.test(f"{compiler} abrupt end in a sandbox", check_sandbox, program)
        suite.test(f"{compiler} abrupt end in the recorder's calls", check_forbidden, program)
        suite.test(f"{compiler} abrupt end by an exec", check_spawns, program)
        suite.test(f"{compiler} abrupt end of a daemon's parent", check_daemon, program)
        suite.test(f"{compiler} abrupt end of threads", check_threads, program)
        suite.long_test(f"{compiler} abrupt end of stores", check_stores, program)
        for way in ("forks", "execs"):
            suite.test(f"{compiler} abrupt end in {way}", check_forks, program, way)
