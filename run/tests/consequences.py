"""Causes and what follows from them: each bug of a table has one entry, and each of several its own."""

import json
import os
import re
from typing import Any, Dict, List

from support import REPORT, TESTS, Suite, compilers_there, expect, expect_in, expect_not_in, expect_ran
from testing.programs import CXX, call

SOURCE = f"{TESTS}/consequences.cpp"
ALL = 'for name in "$@"; do "$PROGRAM" "$name"; done 2>/dev/null; true'


def entries_wanted() -> Dict[str, List[int]]:
    """Returns the lines of each case that have an entry. What stands between two cases belongs to the second."""
    wanted: Dict[str, List[int]] = {}
    lines: List[int] = []
    with open(SOURCE, encoding="utf-8") as file:
        for number, line in enumerate(file, 1):
            found = re.match(r"CASE\((\w+)\) {", line)
            if found:
                wanted[found[1]] = lines
            marks = re.search(r"// entry(, entry)?$", line)
            if marks:
                lines += [number] * (2 if marks[1] else 1)
            if line.startswith("}") and wanted and lines is list(wanted.values())[-1]:
                lines = []
    return wanted


def entries_in(path: str) -> Dict[str, List[int]]:
    """Returns the lines of each case that have an entry in a result."""
    names: Dict[int, str] = {}
    found: Dict[str, List[int]] = {}
    for entry in lines_of(path):
        if entry["type"] == "process":
            names[entry["n"]] = entry["command"][-1]
        elif entry["type"] == "finding" and "follows" not in entry:
            found.setdefault(names[entry["process"]], []).append(line_in(entry["stack"]))
    return {name: sorted(lines) for name, lines in found.items()}


def lines_of(path: str) -> List[Dict[str, Any]]:
    with open(path, encoding="utf-8") as file:
        return [json.loads(line) for line in file]


def line_in(stack: List[Dict[str, Any]]) -> int:
    lines = (it.get("line", 0) for it in stack if it.get("file", "").endswith("/consequences.cpp"))
    return next(filter(None, lines), 0)


def make(folder: str, compiler: str) -> str:
    call([CXX, "-g", "-O1", "-w", "-std=c++17", "-pthread", SOURCE, "-o", "cases"], cwd=folder, check=True,
         env={**os.environ, "ASANCOL_CXX": {"gcc": "g++", "clang": "clang++"}[compiler]})
    return f"{folder}/cases"


def check_table(suite: Suite, folder: str, compiler: str) -> None:
    """All places are in the result, and those without an entry follow one."""
    wanted = entries_wanted()
    expect(len(wanted) >= 60, True, f"{len(wanted)} cases")
    program = make(folder, compiler)
    for leaks in ("yes", "no"):
        names = [name for name in wanted if name.startswith("leak_") == (leaks == "yes")]
        ran = suite.run("--json", f"{folder}/all.jsonl", f"--leaks={leaks}", "--", "sh", "-c", ALL, "sh", *names,
                        ASANCOL_REPORT=REPORT, PROGRAM=program)
        expect_ran(ran, 99, "all complete")
        found = entries_in(f"{folder}/all.jsonl")
        others = {name: found.get(name) for name in names if found.get(name) != wanted[name]}
        expect(others, {}, "entries that others have than are wanted")


def check_forms(suite: Suite, folder: str, compiler: str) -> None:
    """The text, SARIF and Code Quality have the entries, and the text counts the rest, or has it if that is asked."""
    program = make(folder, compiler)

    def text_of(name: str, *argv: str) -> str:
        return suite.run("--live=end", *argv, "--", program, name, ASANCOL_REPORT=REPORT).err

    for name, count in (("list_freed_and_read", 1), ("pointer_from_freed", 1), ("three_bugs", 3)):
        text = text_of(name, "--sarif", f"{folder}/all.sarif", "--codequality", f"{folder}/quality.json")
        expect(text.count("==ERROR: asancol: "), count, text)
        with open(f"{folder}/all.sarif", encoding="utf-8") as file:
            expect(len(json.load(file)["runs"][0]["results"]), count, "SARIF")
        with open(f"{folder}/quality.json", encoding="utf-8") as file:
            expect(len(json.load(file)), count, "Code Quality")
    crash = re.search(r": ended by SIGSEGV, by a load at address 0x\w+ at .* in .*pointer_from_freed.*, after its "
                      r"reports\nasancol: 1 report ", text_of("pointer_from_freed"))
    expect(crash is not None, True, "the crash is a line")
    text = text_of("tree_freed_and_changed", "--leaks=no")
    expect_in(text, "\n  also at ", " later reports of this process may follow from this; --all-places shows them\n")
    every = text_of("tree_freed_and_changed", "--leaks=no", "--all-places")
    expect_not_in(every, "may follow")
    expect((text.count("==ERROR: "), every.count("==ERROR: ") > 1), (1, True), every)


def tests(suite: Suite) -> None:
    for compiler in compilers_there():
        suite.test(f"{compiler} consequences: table", check_table, compiler)
        suite.test(f"{compiler} consequences: outputs", check_forms, compiler)
