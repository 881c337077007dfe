#!/usr/bin/env python3
"""Runs a program once, with AddressSanitizer's runtime or recorded, and notes its first report.

usage: execute.py real|recorded|text FOLDER PROGRAM [ARGUMENT..]

The notes are added as a line to FOLDER/executions. Output and status are those of the program. With `text` it ends
at its first report as with AddressSanitizer, and its output has the text of --log-path, in the words of LLVM 14.
"""

import contextlib
import glob
import json
import os
import re
import shutil
import signal
import subprocess
import sys
import threading
from typing import Any, Dict, Iterator, List, NamedTuple, Optional, Sequence, Set, Tuple

TESTS = os.path.dirname(os.path.dirname(os.path.realpath(__file__)))
if __name__ == "__main__":
    sys.path[:0] = [TESTS, f"{TESTS}/../.."]  # where `support` and `testing` are

from arm import QEMU
from support import by_sanitizer
from testing.programs import TOP, environment

RUN = f"{TOP}/run/asancol-run"
SOURCES = f"{TOP}/recorder/out/suites/sources/"

# With TARGET=aarch64 in the environment, the programs are for ARM, and run under an emulator.
IS_ARM = os.environ.get("TARGET") == "aarch64"
EMULATOR: Sequence[str] = QEMU if IS_ARM else ()

# No program may take longer, in seconds. Nothing is measured by it.
LONGEST = 600
# How many bytes of what a program prints are looked at.
MOST = 1 << 20

NOT_BUILT = "does not build"

# Options of AddressSanitizer with which its first report stays the same, beside those that asancol takes and those on
# which no report depends, by the table of its page.
OTHERS = {"coverage", "coverage_direct", "handle_segv=2", "redzone", "report_globals=2"}
SPELLED = {"0": ("0", "false"), "1": ("1", "true")}


def held_options(table: str) -> Set[str]:
    """The options of the table with which asancol does as AddressSanitizer does: some with each value, the others with
    the one that holds."""
    found = set(OTHERS)
    for name, fate, value in re.findall(r'^OPTION\((\w+), (\w+), "([^"]*)"', table, re.M):
        found |= {f"{name}={it}" for it in SPELLED.get(value, (value,))} if fate == "FIXED" else {name}
    return found


with open(f"{TOP}/common/asan_options.def", encoding="utf-8") as options_table:
    HARMLESS = held_options(options_table.read())


# With this one it also finds uses after return, for which a recorded program has to be compiled.
RETURNS = "detect_stack_use_after_return=1"
FINDS_RETURNS = "-fsanitize-address-use-after-return=runtime"
# With this one it also finds leaks, which are reports if asancol-run is asked for them.
LEAKS = "detect_leaks=1"
# With this one it finds no free by another family.
NO_MISMATCHES = "alloc_dealloc_mismatch=0"


class Report(NamedTuple):
    """A report, or how a process has ended. Lines are FILE:LINE, of the first frame in a test's sources."""

    wrong: str
    line: str
    allocated: str = ""
    freed: str = ""


class Execution(NamedTuple):
    """A program that has run. `option` is one of AddressSanitizer's that changes what it says."""

    status: int
    report: Optional[Report] = None
    option: str = ""


def first_line(lines: Iterator[str]) -> str:
    """The first of these lines that is of a test's source."""
    return next((it[len(SOURCES):] for it in lines if it.startswith(SOURCES)), "")


FRAME = re.compile(r"^ +#\d+ 0x[0-9a-f]+ .*?(/\S*?):(\d+)(?::\d+)?$")


def frames(text: str) -> Iterator[str]:
    """The lines of a stack as AddressSanitizer prints it: up to an empty one."""
    for line in text.splitlines()[1:]:
        frame = FRAME.match(line)
        if frame:
            yield f"{os.path.normpath(frame[1])}:{frame[2]}"
        elif not line.strip():
            return


def stack_after(text: str, words: str) -> str:
    found = re.search(words, text)
    return first_line(frames(text[found.start():])) if found else ""


def class_by_sanitizer(first: str, text: str) -> str:
    """The class of a report, by its first word. If that is one of a sentence, as `calloc`, the summary has it."""
    summary = re.search(r"(?m)^SUMMARY: AddressSanitizer: ([\w-]+)", text)
    return summary[1] if summary and first.isalpha() and first.islower() else first


def report_by_sanitizer(text: str) -> Optional[Report]:
    """AddressSanitizer's first report."""
    if "ERROR: LeakSanitizer" in text and "ERROR: AddressSanitizer" not in text:
        return Report("leak", stack_after(text, "(?m)^Direct leak"))
    said = by_sanitizer(text)
    if not said:
        return Report("CHECK", "") if "AddressSanitizer: CHECK failed" in text else None
    text = text[text.index("ERROR: AddressSanitizer: "):]
    wrong = class_by_sanitizer(said[0], text)
    text = text.split("\nSUMMARY: ")[0]
    allocated = stack_after(text, r"(?m)^(?:previously )?allocated by thread")
    return Report(wrong, stack_after(text, "^"), allocated, stack_after(text, r"(?m)^freed by thread"))


def line_of(stack: Sequence[Dict[str, Any]]) -> str:
    """The line of a stack, which frames that the compiler has put together do not have."""
    return first_line(f"{os.path.normpath(it['file'])}:{it['line']}" for it in stack if "file" in it and "line" in it)


def moment(finding: Dict[str, Any]) -> Tuple[int, int, float]:
    """When a finding was first. One by the recorder has no event, but the number of those that came before."""
    event = finding["event"] or finding.get("after", 0) + 0.5
    return finding["process"], finding.get("segment", 1), event


def report_by_asancol(path: str) -> Optional[Report]:
    """The first report of a result, or what has ended a process, or why not all was seen."""
    if not os.path.exists(path):
        return Report("incomplete: there is no result", "")
    with open(path, encoding="utf-8") as file:
        entries: List[Dict[str, Any]] = [json.loads(line) for line in file]
    findings = [it for it in entries if it["type"] == "finding" and "suppressed" not in it]
    if findings:
        it = min(findings, key=moment)
        return Report(it["class"], *(line_of(it.get(name, [])) for name in ("stack", "allocated", "freed")))
    for it in entries:
        if it["type"] == "process" and "signal" in it:
            return Report(signal.Signals(it["signal"]).name, line_of(it.get("stack", [])))
    whys = [it["why"] for it in entries if it["type"] == "process" and not it["whole"]]
    return Report(f"incomplete: {whys[0]}", "") if whys else None


def other_option(options: str) -> str:
    """An option that changes what AddressSanitizer says, if there is one."""
    given = re.split("[:, ]+", options.strip(": "))
    return next((it for it in given if it and it not in HARMLESS and it.split("=")[0] not in HARMLESS), "")


def run(argv: Sequence[str], folder: str, settings: Dict[str, str], stdout: Any) -> Tuple[int, str]:
    """The status of a program, or the negative number of its signal, and the first MOST bytes of its errors. What it
    has left running is ended."""
    started = subprocess.Popen(argv, cwd=folder, env=settings, stdin=subprocess.DEVNULL, stdout=stdout,
                               stderr=subprocess.PIPE, start_new_session=True)
    errors: List[bytes] = []
    reader = threading.Thread(target=read_up_to, args=(started.stderr, MOST, errors))
    reader.start()
    try:
        started.wait(LONGEST)
    except subprocess.TimeoutExpired:
        pass
    with contextlib.suppress(ProcessLookupError):
        os.killpg(started.pid, signal.SIGKILL)
    reader.join()
    return started.wait(), b"".join(errors).decode(errors="replace")


def read_up_to(stream: Any, most: int, pieces: List[bytes]) -> None:
    """Reads all of a stream, and keeps its beginning."""
    kept = 0
    with stream:
        for piece in iter(lambda: stream.read1(1 << 16), b""):
            pieces += [piece[:most - kept]] if kept < most else []
            kept += len(piece)


def execute(way: str, argv: Sequence[str], folder: str, notes: str, stdout: Any = subprocess.DEVNULL,
            **settings: str) -> Execution:
    """Runs a program in a folder. What it prints as errors is in NOTES/errors then."""
    if not os.path.exists(os.path.join(folder, argv[0])) and not shutil.which(argv[0]):
        return Execution(127, Report(NOT_BUILT, ""))
    argv = [*EMULATOR, *argv]
    result = f"{notes}/result.jsonl"
    all_settings = environment(**{"ASANCOL": os.environ["ASANCOL"], **settings})
    options = all_settings.get("ASAN_OPTIONS", "")
    if way == "real":
        all_settings["ASAN_OPTIONS"] = f"detect_leaks=0:{options}"
    else:
        all_settings["ASANCOL_USE_AFTER_RETURN"] = str(int(RETURNS in options))
        all_settings["ASANCOL_MISMATCHES"] = str(int(NO_MISMATCHES not in options))
        front = [RUN, "--exitcode", "0", "--incomplete-exitcode", "0", "--nothing-exitcode", "0", "--json", result]
        front += ["--leaks", "yes" if LEAKS in options else "no", "--log-file", f"{notes}/run.log"]
        argv = [*front, "--", *argv]
        with contextlib.suppress(FileNotFoundError):
            os.unlink(result)
    if way == "text":
        all_settings["ASANCOL_HALT"] = "0" if re.search("halt_on_error=(0|false)", options) else "1"
        argv = [argv[0], "--log-path", f"{notes}/log", *argv[1:]]
    status, errors = run(argv, folder, all_settings, stdout)
    if way == "text":
        errors = with_text(errors, notes)
    with open(f"{notes}/errors", "w", encoding="utf-8") as file:
        file.write(errors)
    # What a unit test says of its deaths is no report.
    said = "".join(it for it in errors.splitlines(True) if not it.startswith("DEJAGNU_GTEST_EXPECT_DEATH"))
    report = report_by_sanitizer(said) if way == "real" else report_by_asancol(result)
    return Execution(status, report, other_option(options))


def with_text(errors: str, notes: str) -> str:
    """Returns what a program has printed, with the text of its files in the place of what it says at its halt."""
    texts = ""
    for path in sorted(glob.glob(f"{notes}/log.*")):
        with open(path, encoding="utf-8", errors="replace") as file:
            texts += file.read()
        os.unlink(path)
    for words, before in (("after", "to the right of"), ("before", "to the left of")):
        texts = re.sub(rf"(is located \d+ bytes) {words}", rf"\1 {before}", texts)
    halted = re.search(r"(?ms)^=+\n==\d+==ERROR: AddressSanitizer: .*?^==\d+==ABORTING\n", errors)
    at, end = halted.span() if halted else (len(errors), len(errors))
    return errors[:at] + texts + errors[end:]


def main() -> int:
    way, notes, *argv = sys.argv[1:]
    options = {it: os.environ[it] for it in ("ASAN_OPTIONS", "LSAN_OPTIONS") if it in os.environ}
    done = execute(way, argv, ".", notes, None, **options)
    with open(f"{notes}/executions", "a", encoding="utf-8") as file:
        file.write(f"{json.dumps(done)}\n")
    with open(f"{notes}/errors", "rb") as errors:
        shutil.copyfileobj(errors, sys.stderr.buffer)
    sys.stderr.flush()
    return done.status if done.status >= 0 else 128 - done.status


if __name__ == "__main__":
    sys.exit(main())
