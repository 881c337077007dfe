"""Options and statuses of asancol-run."""

import os
import re
from typing import Dict, List, Tuple

from support import REPORT, TESTS, Failure, Suite, expect, expect_in, expect_ran

# A run, by the words after asancol-run, in which PROGRAM stands for the recorded program: its status, and texts that
# are on standard error. A text after a `!` is not there.
RUNS: Dict[str, Tuple[str, int, List[str]]] = {
    "clean": ("-- PROGRAM sound", 0, ["asancol: no reports; 1 process, 2 events; all complete"]),
    "full": ("--full -- PROGRAM sound", 0, ["asancol: no reports; 1 process, 2 events; all complete"]),
    "clean and quiet": ("-q -- PROGRAM sound", 0, ["!asancol"]),
    "without dashes": ("-q PROGRAM sound", 0, []),
    "verbose": ("-v -- PROGRAM sound", 0, [": complete, 2 events, 0 reports"]),
    "verbose, each with its end": ("-v -- sh -c 'PROGRAM aborts; PROGRAM execs PROGRAM sound; true'", 0, [
        "complete: ended by SIGABRT, ", "complete: continued as another program, ", "programs: complete, "
    ]),
    "own status": ("-q -- sh -c 'PROGRAM sound; exit 7'", 7, ["!asancol"]),
    "report": ("-- PROGRAM past", 99, []),
    "report wins over the command": ("-- sh -c 'PROGRAM past; exit 7'", 99, []),
    "exitcode": ("--exitcode 5 -- PROGRAM past", 5, []),
    "error-exitcode": ("--error-exitcode=6 -- PROGRAM past", 6, []),
    "exitcode 0": ("--exitcode=0 -- sh -c 'PROGRAM past; exit 7'", 7, []),
    "last one counts": ("--exitcode 5 --exitcode 8 -- PROGRAM past", 8, []),
    "forked child": ("-- PROGRAM child", 99, []),
    "death is complete": ("-v -- PROGRAM aborts", 0, ["complete: ended by SIGABRT"]),
    "exec": ("-- PROGRAM execs PROGRAM past", 99, []),
    "exec is complete": ("-- PROGRAM execs PROGRAM sound", 0, ["2 processes, 4 events; all complete"]),
    "failed exec": ("-- PROGRAM execs /proc/none", 127, ["1 process, 2 events; all complete"]),
    "nothing": ("-- true", 98, ["NOTHING WAS RECORDED", "no reports; 0 processes, 0 events; INCOMPLETE"]),
    "nothing, and quiet": ("-q -- true", 98, ["NOTHING WAS RECORDED"]),
    "nothing-exitcode": ("--nothing-exitcode 77 -- true", 77, ["NOTHING WAS RECORDED"]),
    "nothing-exitcode 0": ("--nothing-exitcode 0 -- sh -c 'exit 4'", 4, ["NOTHING WAS RECORDED"]),
    "nothing of a failure is no test skipped": ("--nothing-exitcode 77 -- false", 98, ["NOTHING WAS RECORDED"]),
    "nothing by a signal": ("--nothing-exitcode 77 -- sh -c 'kill -TERM $$'", 98, [
        "NOTHING WAS RECORDED: was a program built with asancol-cc?\n"
    ]),
    "nothing by a crash": ("-- sh -c 'kill -SEGV $$'", 98, [
        "NOTHING WAS RECORDED: the command was ended by SIGSEGV before a recording began, or not built with asancol-cc"
    ]),
    "nothing by a program's crash": ("-- sh -c 'exit 134'", 98, [
        "NOTHING WAS RECORDED: a program of the command was ended by SIGABRT before a recording began, or not built "
    ]),
    "nothing of a failure, and incomplete-exitcode 0": (
        "--nothing-exitcode 77 --incomplete-exitcode 0 -- sh -c 'exit 4'", 4, ["NOTHING WAS RECORDED"]
    ),
    "nothing, and at-least": ("--nothing-exitcode 77 --at-least 1 -- true", 98, ["NOTHING WAS RECORDED"]),
    "nothing-exitcode 0, and at-least": ("--nothing-exitcode 0 --at-least 1 -- true", 98, []),
    "nothing, and timeout": ("--nothing-exitcode 77 --timeout 0.2 -- sleep 9", 98, ["was ended by --timeout"]),
    "timeout": ("--timeout 0.2 -- sh -c 'PROGRAM sound; sleep 9'", 98, [
        "the command is ended by --timeout, after 0.2 seconds",
        "asancol: INCOMPLETE: the command was ended by --timeout",
        "2 events; INCOMPLETE",
    ]),
    "timeout of a second": ("--timeout 1 -- sleep 9", 98, ["ended by --timeout, after 1 second\n"]),
    "a file that is called --": ("--json=-- -- PROGRAM sound", 0, ["the report"]),
    "no checks": ("-- UNCHECKED sound", 98, ["NOTHING WAS RECORDED"]),
    "no checks beside checks": ("-- sh -c 'PROGRAM sound; UNCHECKED sound'", 98, ["none of its code was compiled"]),
    "no checks as skipped": ("--nothing-exitcode 77 -- UNCHECKED sound", 77, []),
    "at-least": (
        "--at-least 2 -- sh -c 'PROGRAM sound; true'",
        98,
        ["INCOMPLETE: 1 fewer than --at-least asks for", "2 events; INCOMPLETE"],
    ),
    "at-least is met": ("--at-least 2 -- sh -c 'PROGRAM sound; PROGRAM sound'", 0, []),
    "incomplete-exitcode": ("--incomplete-exitcode 3 --at-least 2 -- PROGRAM sound", 3, []),
    "incomplete-exitcode 0": ("--incomplete-exitcode 0 --at-least 2 -- sh -c 'PROGRAM sound; exit 9'", 9, []),
    "command ends by a signal": ("-- sh -c 'PROGRAM sound; kill -TERM $$'", -15, ["all complete"]),
    "program ends by a signal": ("-- PROGRAM kills_itself 11", -11, ["the report"]),
    "program ends by a signal, and quiet": ("-q -- PROGRAM kills_itself 11", -11, ["!asancol"]),
    "program is terminated": ("-- PROGRAM kills_itself 15", -15, ["all complete"]),
    "killed": ("-- PROGRAM kills_itself 9", -9, [
        "ended abruptly, by SIGKILL: seen up to there", "all complete, 1 ended abruptly"
    ]),
    "killed, and quiet": ("-q -- sh -c 'PROGRAM kills_itself 9; true'", 0, ["!asancol"]),
    "no shadow": ("-- sh -c 'ulimit -v 1000000; PROGRAM sound || true'", 98, [
        "programs: INCOMPLETE: address space is limited", "!NOTHING WAS RECORDED"
    ]),
    "no shadow, and nothing-exitcode": (
        "--nothing-exitcode 77 -- sh -c 'ulimit -v 1000000; PROGRAM sound || true'", 98, []
    ),
    "a trace elsewhere": ("-- sh -c 'ASANCOL_TRACE=/dev/null PROGRAM sound; PROGRAM sound'", 98, [
        "programs: INCOMPLETE: ASANCOL_TRACE is set for it", "1 INCOMPLETE"
    ]),
    "an unknown fork": ("-- PROGRAM forks_unseen", 98, ["INCOMPLETE: it was not made by fork, but by a call"]),
    "folder removed": ("-- sh -c 'PROGRAM sound; rm -r ${ASANCOL_HUB%/*}; PROGRAM sound'", 98, [
        "3 processes, 4 events", "(unknown): INCOMPLETE: the folder of the run was removed"
    ]),
    "not found": ("-- no-such-command", 127, ["asancol-run: no-such-command: No such file or directory"]),
    "not executable": ("-- /etc/passwd", 126, ["asancol-run: /etc/passwd: Permission denied"]),
    "a folder": ("-- /usr", 126, []),
    "checker's limit": ("--full --limit 100 -- PROGRAM many 200", 98, [
        "reached the event limit of its checker, after 100"
    ]),
    "checker's memory": ("--memory 1048576 -- PROGRAM sound", 0, []),
    "quarantine": ("--quarantine 0 -- sh -c 'PROGRAM many 9 && test $ASANCOL_QUARANTINE = 0'", 0, []),
    "quarantine of the command": ("-- env ASANCOL_QUARANTINE=100 PROGRAM many 500", 0, ["all complete"]),
    "quarantine of a child": (
        "--full -- sh -c 'PROGRAM sound; export ASANCOL_QUARANTINE=0; PROGRAM sound; PROGRAM sound'", 0, [
            "all complete\nasancol: process ",
            "programs: held back 0 bytes of freed memory (ASANCOL_QUARANTINE), so uses after free may be missed; "
            "and so did 1 more",
        ]
    ),
    "quarantine of a child, quiet": ("--full -q -- env ASANCOL_QUARANTINE=0 PROGRAM sound", 0, ["!asancol"]),
    "quarantine of a lean child": (
        "-- sh -c 'ASANCOL_QUARANTINE=0 PROGRAM sound; ASANCOL_FULL=1 ASANCOL_QUARANTINE=7 PROGRAM sound'", 0,
        ["!held back 0", "held back 7 bytes of freed memory (ASANCOL_QUARANTINE)", "!and so did"]
    ),
    "quarantine of a child that is no lower": (
        "--full -- env ASANCOL_QUARANTINE=268435456 PROGRAM sound", 0, ["!held back"]
    ),
    "quarantine of a lean run": ("--quarantine 1 -- PROGRAM sound", 0, ["all complete\n", "!held back"]),
    "quarantine of a run": ("--full --quarantine 1 -- sh -c 'PROGRAM sound; PROGRAM sound'", 0, [
        "complete\nasancol: 1 byte of freed memory is held back (--quarantine), so uses after free may be missed\n",
        "!asancol: process",
    ]),
    "limit of a child": ("-- sh -c 'ASANCOL_LIMIT=5 ASANCOL_SEGMENTS=0 PROGRAM many 9; true'", 98, [
        "INCOMPLETE: reached the event limit: ", "events were not recorded, since ASANCOL_SEGMENTS is 0\n"
    ]),
    "limit of a child, in segments": ("-- sh -c 'ASANCOL_LIMIT=9000 PROGRAM many 9000'", 0, ["complete", "!ASANCOL"]),
    "mismatches are not wanted": ("-- sh -c 'ASANCOL_MISMATCHES=0 PROGRAM sound; PROGRAM sound'", 0, [
        "not checked: families and sizes of frees (ASANCOL_MISMATCHES=0)\n"
    ]),
    "mismatches are wanted": ("--unchecked=error -- env ASANCOL_MISMATCHES=0 PROGRAM sound", 98, []),
    "mismatches are not wanted in the run": ("--no-mismatches --unchecked=error -- PROGRAM sound", 0, ["all complete"]),
    "leaks are not wanted": ("-- env ASANCOL_LEAKS=0 PROGRAM sound", 0, [
        "not checked: leaks (ASANCOL_LEAKS is not 1)\n"
    ]),
    "leaks are but a line": ("--leaks=summary -- env ASANCOL_LEAKS=0 PROGRAM sound", 0, ["all complete"]),
    "use after return is not looked for": ("-- env ASANCOL_USE_AFTER_RETURN=0 PROGRAM sound", 0, ["all complete"]),
    "frames that nobody looked at": ("-- ENDED skipped=8", 0, ["not checked: frames in a block, from another stack\n"]),
    "addresses of no trace": ("-- ENDED skipped=32", 0, ["not checked: accesses at addresses that no trace has\n"]),
    "returns that nobody looked at": ("-- ENDED skipped=2", 0, [
        "not checked: uses after return (ASANCOL_USE_AFTER_RETURN=0)\n"
    ]),
    "freed memory came again": ("-- ENDED used_again=1234567890", 0, [
        "; all complete\nasancol: process ",
        "./ended: reused freed memory after 1.2 GB of blocks, so later uses after free may be missed\n"
    ]),
    "freed memory came again in three": (
        "--unchecked=error -- sh -c 'ENDED used_again=6815744; ENDED used_again=0; ENDED used_again=9; "
        "ENDED used_again=8; exit 7'", 7,
        ["freed memory after 6.8 MB of blocks, ", "may be missed; and so did 2 more\n"],
    ),
    "freed memory came again, quiet": ("-q -- ENDED used_again=6815744", 0, ["!asancol"]),
    "freed memory came again, past all addresses": ("-- ENDED used_again=18446744073709551615", 0, [
        "reused freed memory after 140737.5 GB of blocks"
    ]),
    "freed memory did not come again": ("-- ENDED used_again=0", 0, ["all complete\n", "!again"]),
    "environment": (
        "-- sh -c 'PROGRAM sound; test -n \"$ASANCOL_HUB\" -a -z \"${ASANCOL_QUARANTINE+x}\"'", 0, []
    ),
}

# A command line that is refused, and the message.
REFUSED: Dict[str, Tuple[str, str]] = {
    "unknown": ("--nonsense true", "unknown option --nonsense\n"),
    "near": ("--exit-code 3 true", "unknown option --exit-code; did you mean --exitcode?"),
    "near, with a value": ("--supressions=f true", "unknown option --supressions; did you mean --suppressions?"),
    "beginning": ("--code f true", "did you mean --codequality?"),
    "halt": ("--halt true", "unknown option --halt; ASANCOL_HALT=1 in the environment ends each process"),
    "AddressSanitizer's": ("--log_path=x true", "unknown option --log_path; did you mean --log-path?"),
    "AddressSanitizer's, with dashes": ("--detect-leaks=1 true", "did you mean --leaks=yes or --leaks=no?"),
    "AddressSanitizer's alone": ("--strip-path-prefix=/a true", "ASAN_OPTIONS=strip_path_prefix=.. in the environment"),
    "letter": ("-x true", "unknown option -x\n"),
    "valgrind's": ("--leak-check=full true", "unknown option --leak-check\n"),
    "no command": ("-q", "no command was given"),
    "no command after dashes": ("-q --", "no command was given"),
    "no value": ("--wait", "--wait: it needs a value"),
    "dashes as a value": ("--html -- true", "--html: it needs a value"),
    "dashes as a number": ("--wait -- true", "--wait: it needs a value"),
    "dashes as a value, quiet": ("-q --keep -- true", "--keep: it needs a value"),
    "a value too many": ("--quiet=1 true", "--quiet: it takes no value"),
    "status": ("--exitcode 256 true", "--exitcode: '256' is not a number (0 to 255)"),
    "status, below 0": ("--exitcode -1 true", "'-1' is not a number (0 to 255)"),
    "status, empty": ("--exitcode= true", "'' is not a number (0 to 255)"),
    "status, text": ("--exitcode 7x true", "'7x' is not a number (0 to 255)"),
    "count": ("--at-least 1000000001 true", "is not a number (0 to 1000000000)"),
    "huge": ("--at-least 99999999999999999999999 true", "is not a number (0 to 1000000000)"),
    "wait": ("--wait 86401 true", "'86401' is not a number of seconds (0 to 86400)"),
    "wait, text": ("--wait soon true", "'soon' is not a number of seconds"),
    "wait, not a number": ("--wait nan true", "'nan' is not a number of seconds"),
    "wait, two points": ("--wait 1.2.3 true", "'1.2.3' is not a number of seconds"),
    "timeout": ("--timeout 0 true", "'0' is not a number of seconds (0.001 to 31536000)"),
    "limit": ("--limit 16777217 true", "'16777217' is not a number (1 to 16777216)"),
    "memory": ("--memory 1000 true", "'1000' is not a number (1048576 to 1099511627776)"),
    "quarantine": ("--quarantine 1099511627777 true", "is not a number (0 to 1099511627776)"),
    "color": ("--color blue true", "'blue' is not one of auto, always and never"),
    "no suppressions": ("--suppressions /proc/none true", "/proc/none: No such file or directory"),
    "a folder as baseline": ("--baseline /usr true", "/usr: Is a directory"),
    "address without a file": ("--source-url https://x/{line} true",
                               "'https://x/{line}' does not say which file: write {file} or {path} where its path"),
    "address without a scheme": ("--source-url //x/{file} true", "has no scheme: begin it with one, such as https: or"),
    "address that runs": ("--source-url JavaScript:{file} true", "begin it with another scheme, such as https:"),
    "address with another mark": ("--source-url x:{file}{lin} true", "a brace of no mark: the marks are {file}, "),
    "address beyond ASCII": ("--source-url x:{file}é true", "write its bytes as % and two hexadecimal digits"),
    "no root": ("--source-root /etc/passwd true", "/etc/passwd: Not a directory"),
    "no folder for an output": ("--json /proc/none/x true", "--json: /proc/none/x: No such file or directory"),
    "output is a folder": ("--html /usr true", "/usr: Is a directory"),
    "output is standard output": ("--json - true", "--json: - is not a file"),
    "log is standard output": ("--log-file - true", "--log-file: - is not a file"),
    "output is a closed descriptor": ("--json /dev/fd/99 true", "--json: /dev/fd/99: Bad file descriptor"),
    "log is a closed descriptor": ("--log-file /dev/fd/99 true", "/dev/fd/99: Bad file descriptor"),
    "no folder for the log": ("--log-file /proc/none/x true", "/proc/none/x: No such file or directory"),
    "one file for two outputs": ("--json x --sarif ./x true", "x is the file of --json too"),
    "one file for an output and the log": ("--log-file x --json x true", "x is the file of --log-file too"),
    "keep is a file": ("--keep /etc/passwd true", "/etc/passwd: Not a directory"),
    "keep has no parent": ("--keep /proc/none/x true", "/proc/none/x: No such file or directory"),
    "mark": ("--log-file %x true", "after a % comes p, q{NAME} or another %"),
    "mark at the end": ("--log-file 5% true", "after a % comes p, q{NAME} or another %"),
    "mark without an end": ("--log-file %q{HOME true", "%q{ has no }"),
    "variable": ("--log-file %q{NO_SUCH_ONE} true", "there is no such environment variable"),
    "empty name": ("--log-file= true", "the name is empty"),
}


def split(suite: Suite, line: str) -> List[str]:
    """Splits a line as a shell does."""
    words = line.replace("PROGRAM", suite.program).replace("UNCHECKED", suite.unchecked)
    words = words.replace("ENDED", f"{TESTS}/ended.py")
    found: List[str] = []
    for number, piece in enumerate(words.split("'")):
        found += [piece] if number % 2 else piece.split()
    return found


def check_run(suite: Suite, folder: str, line: str, status: int, texts: List[str]) -> None:
    ran = suite.run(*split(suite, line), cwd=folder)
    absent = [it[1:] for it in texts if it.startswith("!")]
    expect_ran(ran, status, *[it for it in texts if not it.startswith("!")], absent=absent)


def check_refused(suite: Suite, folder: str, line: str, text: str) -> None:
    """Nothing is run, and the line says why."""
    words = line.split()
    mark = f"{folder}/ran"
    if words[-1] == "true":
        words[-1:] = ["touch", mark]
    ran = suite.run(*words, cwd=folder)
    expect_ran(ran, 125, "asancol-run: ", text)
    expect(os.path.exists(mark), False, "that the command ran")


def check_help(suite: Suite, folder: str) -> None:
    for word in ("--help", "-h"):
        ran = suite.run(word)
        expect((ran.status, ran.err), (0, ""), word)
        lines = ran.out.splitlines()
        if len(lines) > 50 or max(len(it) for it in lines) > 80:
            raise Failure(f"the help has {len(lines)} lines, and up to {max(len(it) for it in lines)} columns")
    expect(suite.run("--version").out.split()[0], "asancol-run", "version")
    expect(suite.run("-q", "--help").status, 0, "help after another option")


def check_missing_checker(suite: Suite, folder: str, checker: str) -> None:
    """It is found before the command starts."""
    mark = f"{folder}/ran"
    ran = suite.run("--", "touch", mark, ASANCOL=checker)
    expect_ran(ran, 125, checker, "is missing or cannot be executed")
    expect(os.path.exists(mark), False, "that the command ran")


def check_other_checker(suite: Suite, folder: str) -> None:
    """A program that prints no verdict is found out."""
    ran = suite.run("--", suite.program, "sound", ASANCOL="/bin/true")
    expect_ran(ran, 98, "INCOMPLETE: its checker printed no verdict, and ended with status 0")


def check_quarantine_of_environment(suite: Suite, folder: str) -> None:
    """What the recorder is given, the checker is given too; in lean recording at least what it holds by default."""
    checker = f"{folder}/asancol"
    with open(checker, "w", encoding="utf-8") as script:
        script.write(f'#!/bin/sh\necho "$*" > {folder}/words\nexec {suite.asancol} "$@"\n')
    os.chmod(checker, 0o755)
    for mode, setting, wanted in (("1", "4096", "check --quarantine 4096 -"), ("1", "junk", ""), ("0", "junk", ""),
                                  ("0", "4096", "check --quarantine 268435456 -"),
                                  ("0", "1000000000", "check --quarantine 1000000000 -")):
        argv = ["--live=end", "--", suite.program, "sound"]
        ran = suite.run(*argv, ASANCOL=checker, ASANCOL_QUARANTINE=setting, ASANCOL_FULL=mode)
        expect_ran(ran, 0)
        with open(f"{folder}/words", encoding="utf-8") as words:
            expect(words.read().strip(), wanted, setting)
    argv = ["--live=end", "--full", "--quarantine=1", "--limit", "9", "--limit", "8", "--", suite.program, "sound"]
    suite.run(*argv, ASANCOL=checker)
    with open(f"{folder}/words", encoding="utf-8") as words:
        expect(words.read().strip(), "check --quarantine 1 --limit 8 -", "options")


def check_environment(suite: Suite, folder: str) -> None:
    """Nothing else of the environment changes."""
    before = suite.environment(ASANCOL_TRACE="x", ASANCOL_SOCKET="y")
    after = dict(it.split("=", 1) for it in suite.run("--", "env", "-0", **before).out.split("\0") if it)
    hub = after.pop("ASANCOL_HUB")
    expect(hub.startswith("/"), True, "an absolute name")
    expect((after.pop("ASANCOL_LEAKS"), after.pop("ASANCOL_LIVE")), ("1", "1"), "leaks, and reports as they come up")
    expect(re.fullmatch(r"\d+:\d+", after.pop("ASANCOL_TEXT")) is not None, True, "where the text goes")
    expect_in(after.pop("LD_PRELOAD"), "libasancol_before_libasan.so")
    for name in ("ASANCOL_TRACE", "ASANCOL_SOCKET"):
        del before[name]
    expect(after, before, "environment")


def check_beside(suite: Suite, folder: str) -> None:
    """A process that can make no side memory gets one, and a limit that can be raised is no limit."""
    line = "ulimit -f 100; PROGRAM past; ulimit -S -n 30; exec PROGRAM child_of_full".replace("PROGRAM", suite.program)
    ran = suite.run("--", "sh", "-c", line, ASANCOL_REPORT=REPORT)
    expect_ran(ran, 99, "in store_past ", "in load_freed ", "3 processes, ", "; all complete\n")
    line = line.replace("-S ", "")
    ran = suite.run("--", "sh", "-c", line, ASANCOL_REPORT=REPORT)
    why = "its findings and leaks are unknown, since there are no data beside its trace: Too many open files\n"
    expect_ran(ran, 99, "its place was not recorded", f"INCOMPLETE: {why}", "3 processes, ", "1 INCOMPLETE\n")


def check_event_limit(suite: Suite, folder: str) -> None:
    ran = suite.run("--", suite.program, "many", "10000", ASANCOL_LIMIT="5000", ASANCOL_SEGMENTS="0")
    expect_ran(ran, 98, "INCOMPLETE: reached the event limit: 15003 of 20003 events were not recorded")


def tests(suite: Suite) -> None:
    for name, (line, status, texts) in RUNS.items():
        suite.test(f"status: {name}", check_run, line, status, texts)
    for name, (line, text) in REFUSED.items():
        suite.test(f"refused: {name}", check_refused, line, text)
    suite.test("help", check_help)
    for checker in ("/proc/none/asancol", "/etc/passwd", "/usr", "no-such-program"):
        suite.test(f"checker {checker}", check_missing_checker, checker)
    suite.test("checker that is another program", check_other_checker)
    suite.test("quarantine of the environment", check_quarantine_of_environment)
    suite.test("environment", check_environment)
    suite.test("event limit", check_event_limit)
    suite.test("nothing beside", check_beside)
