#!/usr/bin/env python3
"""Tries mutants.py on edits of which it is known what has to be said of them.

They are planted in a copy of the crate asan_units, in a temporary folder. Refusals are kept, also
once another crate stands on that one. The last line is `N passed, M failed`. It takes a minute of one
processor.
"""

import os
import re
import shutil
import subprocess
import sys
import tempfile
from typing import Dict, List, NamedTuple

from gate import TOP

CRATE = "asan_units"
USUAL = "width <= 8"
ROUNDED = "size.next_multiple_of(GRANULE)"


class Planted(NamedTuple):
    """An edit of `src/lib.rt`, and what has to be said of it."""

    name: str
    old: str
    new: str
    answer: str


PLANTED = [
    Planted("another_value", ROUNDED, "size / GRANULE * GRANULE", "refused"),
    Planted("constant_of_a_clause", "GRANULE: u64 = 8;", "GRANULE: u64 = 16;", "refused"),
    Planted("constant_of_no_clause", "1 << 40", "1 << 41", "NOT REFUSED"),
    Planted("means_the_same", ROUNDED, "size.next_multiple_of(8)", "NOT REFUSED"),
    Planted("changes_nothing", USUAL, USUAL, "BAD EDIT"),
    Planted("stands_twice", "GRANULE", "REDZONE", "BAD EDIT"),
    Planted("unknown_name", ROUNDED, "size.next_multiple_of(GRAIN)", "BAD EDIT"),
]


def plant(room: str, planted: List[Planted]) -> None:
    """Makes a repository of the crate, with these edits and no others."""
    os.mkdir(f"{room}/crates")
    shutil.copy(f"{TOP}/HANDLES", room)
    shutil.copytree(f"{TOP}/tools", f"{room}/tools", ignore=shutil.ignore_patterns("__pycache__"))
    leave = shutil.ignore_patterns("out", "mutants")
    shutil.copytree(f"{TOP}/crates/{CRATE}", f"{room}/crates/{CRATE}", ignore=leave)
    with open(f"{room}/crates.txt", "w", encoding="utf-8") as file:
        file.write(f"{CRATE}:\n")
    os.mkdir(f"{room}/crates/{CRATE}/mutants")
    for it in planted:
        path = f"{room}/crates/{CRATE}/mutants/{it.name}.edit"
        with open(path, "w", encoding="utf-8") as file:
            file.write(f"file: src/lib.rt\nold: {it.old}\nnew: {it.new}\n")


class Said(NamedTuple):
    """What a run printed: its status, what it said of each edit, and all of it."""

    status: int
    answers: Dict[str, str]
    printed: str


def tried(room: str) -> Said:
    argv = [sys.executable, f"{room}/tools/mutants.py"]
    there = {**os.environ, "XDG_CACHE_HOME": f"{room}/cache"}
    pipe, joined = subprocess.PIPE, subprocess.STDOUT
    ran = subprocess.run(argv, cwd=room, env=there, text=True, stdout=pipe, stderr=joined)
    answers = dict(re.findall(rf"^{CRATE}/(\w+): ([^:]+):", ran.stdout, re.M))
    return Said(ran.returncode, answers, ran.stdout)


def main() -> int:
    wanted = {it.name: it.answer for it in PLANTED}
    good = [it for it in PLANTED if it.answer == "refused"]
    kept = {it.name: "refused (kept)" for it in good}
    passed, failed = 0, 0
    with tempfile.TemporaryDirectory(prefix="asancol-planted-") as room:
        plant(room, PLANTED)
        first = tried(room)
        for it in PLANTED:
            if it not in good:
                os.remove(f"{room}/crates/{CRATE}/mutants/{it.name}.edit")
        with open(f"{room}/crates.txt", "a", encoding="utf-8") as file:
            file.write(f"another: {CRATE}\n")
        second = tried(room)
    for said, status, answers in ((first, 1, wanted), (second, 0, kept)):
        for name, answer in [*answers.items(), ("its status", status)]:
            found = said.status if name == "its status" else said.answers.get(name)
            passed += found == answer
            failed += found != answer
            if found != answer:
                print(f"FAILED: {name}: {found}, and not {answer}, of:\n{said.printed}")
    print(f"{passed} passed, {failed} failed")
    return 1 if failed else 0


if __name__ == "__main__":
    sys.exit(main())
