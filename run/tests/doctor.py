"""`asancol-run --doctor`: what it says of a machine on which all is there, and of one that lacks something."""

import os
import resource
import subprocess
from typing import Callable, Optional

from support import REPORT, RUN, Ran, Suite, compilers_there, expect
from testing.programs import call


def ask(suite: Suite, limit: Optional[Callable[[], None]] = None, **settings: str) -> Ran:
    ran = call([RUN, "--doctor"], env=suite.environment(ASANCOL_REPORT=REPORT, **settings), stdin=subprocess.DEVNULL,
               capture_output=True, check=False, preexec_fn=limit)
    return Ran(ran.returncode, ran.stdout.decode(), ran.stderr.decode())


def expect_lines(ran: Ran, status: int, *parts: str) -> None:
    expect((ran.status, ran.err, [it for it in parts if it not in ran.out]), (status, "", []), ran.out)


def check_healthy(suite: Suite, folder: str) -> None:
    """With each compiler both bugs of the sample are found, under asancol-run and by the program itself."""
    names = ["asancol-clang" if it == "clang" else "asancol-cc" for it in compilers_there()]
    ways = [f"ok: {name}: a sample program {how}: its two bugs are found\n"
            for name in names for how in ("under asancol-run", "by itself")]
    expect_lines(ask(suite), 0, f": {os.path.realpath(RUN)}\n", "lines of reports: ", *ways, "0 errors, ")


def check_lacking(suite: Suite, folder: str) -> None:
    """Each thing that is missing has a line with a remedy, and an error makes the status 1."""
    os.mkdir(f"{folder}/empty")
    ran = ask(suite, ASANCOL=f"{folder}/none", ASANCOL_RUN="0", PATH=f"{folder}/empty", ASAN_OPTIONS="detect_leaks=0")
    expect_lines(ran, 1, f"error: asancol, the checker, does not start: {folder}/none --version: No such file",
                 "warning: reports have no lines: neither llvm-symbolizer nor addr2line was found: install ",
                 "note: ASAN_OPTIONS=detect_leaks=0 is set\n", "warning: ASANCOL_RUN=0 is set: ",
                 "note: no sample was tried: mend the errors above first\n", "1 error, 2 warnings\n")
    expect_lines(ask(suite, PATH=f"{folder}/empty"), 1, "note: asancol-cc was not tried: cc is not on the path\n",
                 "error: no program can be built: ", "1 error, 2 warnings\n")


def check_limited(suite: Suite, folder: str) -> None:
    """A limit under which no program starts is named."""
    ran = ask(suite, lambda: resource.setrlimit(resource.RLIMIT_AS, (8 << 30, 8 << 30)))
    expect_lines(ran, 1, "error: ulimit -v is 8388608: ", "ulimit -v unlimited\n", "1 error, 1 warning\n")


def check_unchecked(suite: Suite, folder: str) -> None:
    """A run of the sample that checks less says so once."""
    ran = ask(suite, ASANCOL_MISMATCHES="0")
    line = "warning: asancol-cc: not checked: families and sizes of frees (ASANCOL_MISMATCHES=0)\n"
    expect_lines(ran, 0, "note: ASANCOL_MISMATCHES=0 is set\n", line)
    expect(ran.out.count(line), 1, ran.out)


def check_leaks_off(suite: Suite, folder: str) -> None:
    """A setting that turns something off is seen in the sample."""
    ran = ask(suite, ASANCOL_LEAKS="0", ASAN_OPTIONS="exitcode=7")
    expect_lines(ran, 1, "note: ASAN_OPTIONS=exitcode=7 is set\n",
                 "by itself: without the leak; it ended with status 99", "    asancol: 1 report at 1 place; ")


def tests(suite: Suite) -> None:
    for name, check in (("a healthy machine", check_healthy), ("nothing there", check_lacking),
                        ("a limit", check_limited), ("leaks turned off", check_leaks_off),
                        ("less checked", check_unchecked)):
        suite.test(f"doctor: {name}", check)
