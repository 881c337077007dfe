"""The table of statuses in docs/ASAN.md: each row, under asancol-run, by itself and with AddressSanitizer."""

import os
import re
import shutil
import signal
from typing import Dict, List, NamedTuple, Sequence, Tuple

from support import CC, REPORT, RUN, SANITIZE, TOP, Suite, compilers_there, expect, leave_out, write_text
from testing.programs import call

PAGE = "docs/ASAN.md"

# Does what its first word says, in the order below, and ends with the status of its second one.
PROGRAM = """
#include <signal.h>
#include <stdlib.h>
#include <string.h>
#include <sys/wait.h>
#include <unistd.h>
static void *volatile sink;
__attribute__((noinline)) static void lose(void) { sink = malloc(100); sink = NULL; }
__attribute__((noinline)) static void bad(void) { char *volatile p = malloc(5); p[5] = 1; free(p); }
__attribute__((noinline)) static void clear_stack(void) {
    volatile char bytes[4000];
    for (size_t i = 0; i < sizeof bytes; i++) bytes[i] = 0; }
int main(int count, char **argv) {
    const char *how = argv[1];
    volatile int zero = 0;
    int status = atoi(argv[2]);
    if (strstr(how, "bad")) bad();
    if (strstr(how, "leak")) { for (volatile int i = 0; i < 3; i++) lose(); clear_stack(); }
    if (strstr(how, "child")) { if (fork() == 0) { bad(); _exit(0); } wait(NULL); }
    if (strstr(how, "SEGV")) *(volatile int *)8 = 1;
    if (strstr(how, "FPE")) zero = 123 / zero;
    if (strstr(how, "ILL")) __builtin_trap();
    if (strstr(how, "ABRT")) abort();
    if (strstr(how, "raise")) raise(status);
    if (strstr(how, "sleep")) sleep(20);
    if (strstr(how, "_exit")) _exit(status);
    if (strstr(how, "exec")) execl("/bin/sh", "sh", "-c", "exit 4", NULL);
    return status; }
"""


class Case(NamedTuple):
    """What makes a row apply."""

    argv: Sequence[str]  # words of the program, or a whole command with a slash
    settings: Dict[str, str] = {}
    options: Sequence[str] = ()  # of asancol-run: then only that is run


def asan(options: str) -> Dict[str, str]:
    return {"ASAN_OPTIONS": options}


BAD, LEAK, CRASH = ["bad", "7"], ["leak", "7"], ["SEGV", "7"]
ALL_THREE = (BAD, LEAK, CRASH)
LIMIT = {"ASANCOL_LIMIT": "5", "ASANCOL_SEGMENTS": "0"}
# By the first cell of each row. If another cell has alternatives, these are of its cases.
ROWS: Dict[str, List[Case]] = {
    "nothing to report": [Case(["sound", "0"]), Case(["sound", "7"])],
    "a report, or a leak at its exit": [Case(BAD), Case(["bad", "0"]), Case(LEAK), Case(["leak", "0"]),
                                        Case(["bad-leak", "7"]), Case(["bad-_exit", "3"]), Case(["bad-raise", "15"])],
    "a report in a child that it waits for": [Case(["child", "0"]), Case(["child", "5"])],
    "a crash: SIGSEGV, SIGBUS, SIGFPE": [Case(CRASH), Case(["raise", "7"]), Case(["FPE", "7"]),
                                         Case(["leak-SEGV", "7"])],
    "SIGABRT, SIGILL, SIGTRAP, SIGTERM or SIGKILL": [Case(["ABRT", "7"]), Case(["ILL", "7"]), Case(["raise", "5"]),
                                                     Case(["raise", "15"]), Case(["raise", "9"])],
    "a leak, but it ends by `_exit`, an exec or a signal": [Case(["leak-_exit", "3"]), Case(["leak-exec", "7"]),
                                                            Case(["leak-raise", "15"])],
    "`ASANCOL_HALT=1`: a report": [Case(BAD, {"ASANCOL_HALT": "1"})],
    "`exitcode=42`: a report, a leak or a crash": [
        *(Case(it, {name: "exitcode=42"}) for it in ALL_THREE for name in ("ASAN_OPTIONS", "LSAN_OPTIONS")),
        *(Case(it, asan("exitcode=42:halt_on_error=1")) for it in ALL_THREE),
        Case(LEAK, {"ASAN_OPTIONS": "exitcode=1", "LSAN_OPTIONS": "exitcode=42"}),
        Case(["FPE", "7"], asan("exitcode=42")),
    ],
    "`exitcode=0` or `--exitcode 0`: a report": [
        Case(BAD, asan("exitcode=0")), Case(BAD, options=["--exitcode", "0"])],
    "the same: a leak": [Case(LEAK, asan("exitcode=0")), Case(LEAK, options=["--exitcode", "0"])],
    "the same: a crash": [Case(CRASH, asan("exitcode=0")), Case(CRASH, options=["--exitcode", "0"])],
    "`halt_on_error=1`: a report, a leak or a crash": [Case(it, asan("halt_on_error=1")) for it in ALL_THREE],
    "`halt_on_error=0`: a report, or a leak": [Case(it, asan("halt_on_error=0")) for it in (BAD, LEAK)],
    "`abort_on_error=1`: a report, a leak or a crash": [
        Case(it, asan(more)) for it in ALL_THREE for more in ("abort_on_error=1", "abort_on_error=1:exitcode=42")],
    "`detect_leaks=0` or `--leaks=summary`: a leak": [Case(LEAK, asan("detect_leaks=0")),
                                                      Case(LEAK, options=["--leaks=summary"])],
    "it was not checked to its end": [Case(["MANY", "many", "9"], LIMIT)],
    "`--timeout` is over": [Case(["sleep", "7"], options=["--timeout", "1"]),
                            Case(["bad-sleep", "7"], options=["--timeout", "1"])],
    "it was not built with `asancol-cc` or for AddressSanitizer": [Case(["PLAIN", "sound", "0"]),
                                                                   Case(["PLAIN", "bad", "7"])],
    "`ASANCOL_RUN=0`": [Case(BAD, {"ASANCOL_RUN": "0"})],
    "it is missing; it cannot be executed": [Case(["/proc/none/program"], options=["-q"]),
                                             Case(["/etc/passwd"], options=["-q"])],
    "no run can begin": [Case(BAD, {"ASANCOL": "/proc/none/checker"}, ["-q"])],
}


# AddressSanitizer refuses some of the layouts that the system draws for a process.
AS_ALWAYS = ["setarch", "-R"] if shutil.which("setarch") else []

# What a cell says, a command, and its settings.
Way = Tuple[str, List[str], Dict[str, str]]


def rows() -> List[List[str]]:
    """Returns the cells of each row."""
    with open(f"{TOP}/{PAGE}", encoding="utf-8") as file:
        text = file.read().split("<!-- statuses -->\n")[1].split("<!-- end of statuses -->")[0]
    return [[it.strip() for it in line.strip("|").split("|")] for line in text.splitlines()[2:]]


def statuses_of(cell: str, number: int, own: int) -> Tuple[int, ...]:
    """Returns which statuses a cell allows in this case, in which the program has this status of its own."""
    alternatives = cell.split("; ")
    text = alternatives[min(number, len(alternatives) - 1)]
    if text.startswith(("its own", "the signal's")):
        return (own,)
    status = int(re.findall(r"^\d+", text)[0])
    return (status, -signal.SIGABRT) if status == 128 + signal.SIGABRT else (status,)


class Programs(NamedTuple):
    """The same program, built in different ways."""

    recorded: str
    plain: str
    sanitized: str
    recovering: str


def build(folder: str, compiler: str) -> Programs:
    write_text(f"{folder}/ways.c", PROGRAM)
    recorded = [CC, "-g", "-w", "ways.c", "-o", "recorded"]
    call(recorded, cwd=folder, env={**os.environ, "ASANCOL_CC": compiler}, check=True)
    for name, flags in (("plain", ""), ("sanitized", "-fsanitize=address"),
                        ("recovering", "-fsanitize=address -fsanitize-recover=address")):
        call([compiler, "-w", "-g", *flags.split(), "ways.c", "-o", name], cwd=folder, check=True)
    return Programs(f"{folder}/recorded", f"{folder}/plain", f"{folder}/sanitized", f"{folder}/recovering")


def check_case(suite: Suite, programs: Programs, cells: Sequence[str], number: int, case: Case) -> List[str]:
    """Returns how a case differs from the cells of its row."""
    settings = {"ASANCOL_REPORT": REPORT, **case.settings}
    first = case.argv[0]

    def argv(program: str) -> List[str]:
        instead = {"PLAIN": programs.plain, "MANY": suite.program}
        if "/" in first:
            return [*case.argv]
        return [instead[first], *case.argv[1:]] if first in instead else [program, *case.argv]
    own = suite.run_argv(argv(programs.plain)).status if "/" not in first and first != "MANY" else -1
    under, alone, sanitizer = cells[1:]
    ways: List[Way] = [(under, [RUN, *case.options, "--", *argv(programs.recorded)], {})]
    if not case.options:
        ways.append((alone, argv(programs.recorded), {"ASANCOL_RUN": RUN}))
        program = programs.recovering if "recover" in sanitizer else programs.sanitized
        ways.append((sanitizer, [*AS_ALWAYS, *argv(program)], {}))
    wrong = []
    for cell, words, more in ways:
        if cell == "":
            continue
        ran = suite.run_argv(words, **{**more, **settings})
        if ran.status not in statuses_of(cell, number, own):
            wrong.append(f"{cells[0]}: {cell}: {case}: {words}: status {ran.status}, its own {own}: {ran.err[:500]}")
    return wrong


def check_rows(suite: Suite, folder: str, compiler: str, have_options: bool) -> None:
    """Goes through the rows that begin with an option, or through the others."""
    programs = build(folder, compiler)
    table = rows()
    expect([it[0] for it in table], list(ROWS), f"the rows of {PAGE}")
    chosen = [it for it in table if it[0].startswith(("`", "the same")) == have_options]
    wrong = [it for cells in chosen for number, case in enumerate(ROWS[cells[0]])
             for it in check_case(suite, programs, cells, number, case)]
    expect(wrong, [], "what differs")


def tests(suite: Suite) -> None:
    if SANITIZE:
        leave_out("status table: ASAN_OPTIONS are those of asancol-run")
        return
    for compiler in compilers_there():
        suite.test(f"status table: {compiler}", check_rows, compiler, False)
        suite.test(f"status table: {compiler}, options", check_rows, compiler, True)
