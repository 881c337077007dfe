"""Processes that live shortly have a checker together. The messages are the same as with one for each."""

import os
import re
from typing import Any, Dict, List, Tuple

from support import REPORT, RUN, TESTS, Suite, expect, expect_ran, read_packets

GARBAGE = "import os, socket; s = socket.socket(socket.AF_UNIX); s.connect(os.environ['ASANCOL_HUB']); s.send({})"
# This many end soon, and well.
SHORT = 40


def checker(suite: Suite, folder: str, line: str) -> str:
    """Returns a checker that does this first, in a shell, with the words of its command line."""
    path = f"{folder}/asancol"
    with open(path, "w", encoding="utf-8") as script:
        script.write(f'#!/bin/sh\n{line}\nexec {suite.asancol} "$@"\n')
    os.chmod(path, 0o755)
    return path


def starts(folder: str) -> List[int]:
    """Returns how many words each checker was given, and forgets them."""
    with open(f"{folder}/words", encoding="utf-8") as words:
        found = [int(it) for it in words]
    os.remove(f"{folder}/words")
    return found


def mixed(suite: Suite) -> str:
    """Returns a line of a shell with short processes, and between them others of each kind."""
    program = suite.program
    others = [f"{program} past 2", f"{program} child", f"{program} execs", f"{program} many 500",
              f"{program} sleeps 0.5", f"{program} kills_itself", f"{program} crashes",
              f'python3 -c "{GARBAGE.format("b" + repr("junk" * 9))}"',
              f'python3 -c "{GARBAGE.format("b" + repr("ASTR"))}"', f"{TESTS}/segmented.py 1 2b 3e",
              f"{TESTS}/segmented.py 1 2k", suite.unchecked + " sound"]
    short = f"i=0; while [ $i -lt 4 ]; do {program} sound; i=$((i+1)); done"
    return "; ".join(f"{short}; {other}" for other in others) + "; exit 0"


def said_of_one(process: Dict[str, Any]) -> List[Any]:
    """Returns the messages on a process, without what depends on when its parent asks for its end."""
    names = ("fate", "events", "reports", "findings", "whole", "left_out", "abrupt", "segments")
    why = re.sub("^ended abruptly, [^:]*", "ended abruptly", process["why"])
    signal = None if why.startswith("ended abruptly") else process["signal"]
    return [*(process.get(name) for name in names), process["command"][1:], why, signal]


def said_of(processes: List[Any]) -> List[Tuple[Any, ...]]:
    """Returns the messages on each process, in the order of processes: the last word, and all verdicts."""
    last = {it["n"]: said_of_one(it) for it in processes}
    verdicts = sorted((it["n"], it.get("segment", 0), it["verdicts"]) for it in processes if "verdicts" in it)
    return [*sorted(last.items(), key=lambda it: it[0]), *verdicts]


def check_mixed(suite: Suite, folder: str) -> None:
    """With --keep each process has a checker for itself."""
    noting = checker(suite, folder, f"echo $# >> {folder}/words")
    said, statuses, counts = [], [], []
    ways: Tuple[List[str], ...] = ([], ["--keep", f"{folder}/kept"])
    for options in ways:
        packets = f"{folder}/packets"
        argv = [*options, "--live=end", "--exitcode=7", "--", "sh", "-c", mixed(suite)]
        ran = suite.run(*argv, ASANCOL=noting, FAKE_PACKETS=packets)
        statuses.append((ran.status, ran.out))
        said.append(said_of([it for it in read_packets(packets)[1:] if it["type"] == "process"]))
        counts.append(starts(folder))
    for together, apart in zip(*said):
        expect(together, apart, "what is said")
    expect(len(said[0]), len(said[1]), "processes and verdicts")
    expect(statuses[0], statuses[1], "status and output")
    expect(2 * len(counts[0]) < len(counts[1]), True, f"checkers: {counts}")
    expect((max(counts[0]) > 0, max(counts[1])), (True, 0), f"words of a checker: {counts}")


def check_same_bytes(suite: Suite, folder: str) -> None:
    """However many have the same small stream, it is checked once; and each that has another one is checked."""
    noting = checker(suite, folder, f"echo $# >> {folder}/words")
    each = f"i=0; while [ $i -lt 400 ]; do {suite.program} sound > /dev/null; i=$((i+1)); done"
    line = f"{each}; {suite.program} past 1 > /dev/null; {each}; true"
    ran = suite.run("--live=end", "--", "sh", "-c", line, ASANCOL=noting,
                    ASANCOL_REPORT=REPORT)
    expect_ran(ran, 99, "1 report at 1 place; 801 processes", "all complete")
    expect(len(starts(folder)) < 8, True, "a checker for the first, and one for the report")


def check_failing(suite: Suite, folder: str, line: str) -> None:
    """A checker of several streams that fails costs none of them its verdict."""
    failing = checker(suite, folder, f'echo $# >> {folder}/words\nif [ "$1" = check ]; then {line}; fi')
    pair = f"{suite.program} sound > /dev/null; {suite.program} execs true"
    each = f"i=0; while [ $i -lt {SHORT} ]; do {pair}; i=$((i+1)); done"
    ran = suite.run("--live=end", "--", "sh", "-c", each, ASANCOL=failing)
    expect_ran(ran, 0, f"no reports; {2 * SHORT} processes, {4 * SHORT} events; all complete")
    expect(len(starts(folder)) > SHORT // 2, True, "whether many had one after it")


def check_all_failing(suite: Suite, folder: str) -> None:
    """If those fail too that each has for itself, it is said of each."""
    each = f"i=0; while [ $i -lt {SHORT} ]; do {suite.program} sound > /dev/null; i=$((i+1)); done"
    ran = suite.run("--live=end", "--", "sh", "-c", each, ASANCOL=checker(suite, folder, "kill -9 $$"))
    expect_ran(ran, 98, f"{SHORT} INCOMPLETE", "its checker was ended by SIGKILL")


def check_few_descriptors(suite: Suite, folder: str) -> None:
    """Those that wait for others hold nobody up, and what a checker can't open it is given alone."""
    each = f"i=0; while [ $i -lt 100 ]; do {suite.program} sound > /dev/null & i=$((i+1)); done; wait"
    for most in (24, 32, 64):
        ran = suite.run_argv(["sh", "-c", f"ulimit -n {most}; exec {RUN} --live=end -- sh -c '{each}'"])
        expect_ran(ran, 0, "no reports; 100 processes, 200 events; all complete")
    limited = checker(suite, folder, 'if [ "$1" = check ]; then ulimit -n 16; fi')
    ran = suite.run("--live=end", "--", "sh", "-c", each, ASANCOL=limited)
    expect_ran(ran, 0, "100 processes, 200 events; all complete")


def check_full_disk(suite: Suite, folder: str) -> None:
    """Where no file may have a byte, no verdict can be written."""
    line = f"i=0; while [ $i -lt 9 ]; do {suite.program} sound > /dev/null; i=$((i+1)); done"
    together = suite.run_argv(["sh", "-c", f"ulimit -f 0; exec {RUN} --live=end -- sh -c '{line}'"])
    alone = suite.run_argv(["sh", "-c", f"ulimit -f 0; exec {RUN} --live=end -- {suite.program} sound"])
    expect((together.status, "9 INCOMPLETE" in together.err), (alone.status, True), together.err)


def tests(suite: Suite) -> None:
    suite.test("shared checker: each kind of process", check_mixed)
    suite.test("shared checker: the same bytes", check_same_bytes)
    for name, line in {
        "killed": "kill -9 $$",
        "failing": "exit 3",
        "half of it": f'{suite.asancol} "$@" | head -n 1; exit 0',
        "half a line": f'{suite.asancol} "$@" | head -c 60; exit 0',
        "none is opened": "echo p0 end not-opened; exit 3",
        "no memory": "echo p0 end no-memory checked 0 reports 0; exit 3",
    }.items():
        suite.test(f"shared checker: {name}", check_failing, line)
    suite.test("shared checker: all are killed", check_all_failing)
    suite.test("shared checker: few descriptors", check_few_descriptors)
    suite.test("shared checker: limit on files", check_full_disk)
