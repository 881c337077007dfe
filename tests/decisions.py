#!/usr/bin/env python3
"""Compares decisions of the C programs with the proved ones.

usage: tests/decisions.py [--as-proved]

The recorder and asancol-run are built without the toolchain. What they decide is proved of crates
that no user's program has: their static libraries are built here, and a program in C calls both on
all inputs, or on all small ones and on drawn ones. It ends with status 0 if none differs. What it
prints has to be the table of its name, if there is one: `make test`, which proves nothing, compares
the C alone with that. Wrong decisions are planted in the C, too: with each, some have to differ.

The last line is 'N passed, M failed', and the status is 0 only if nothing failed.
"""

import os
import shlex
import subprocess
import sys
import tempfile
from typing import List, NamedTuple, Tuple

sys.path.insert(0, f"{os.path.dirname(os.path.realpath(__file__))}/..")  # where `testing` is

from testing import TOP

import rooms

OPTIONS = ["-std=c11", "-O2", "-DPROVED", f"-iquote{TOP}"]


class Decisions(NamedTuple):
    """A static library, and the program that compares C with it: its sources, of which the first
    has the table's name, and the folder that its headers are found in."""

    crate: str
    sources: List[str]
    folder: str
    has_table: bool = False
    planted: Tuple[Tuple[str, str], ...] = ()  # in the last of the sources: a text, and a wrong one


# In recorder/stream/saying.c.
WRONG_GROUPS = (
    ("< span_bytes(block->size)", "<= span_bytes(block->size)"),
    ("block->size, block->is_held, granule)", "block->size, false, granule)"),
    ("shade_left(found, granule) == shade", "shade_left(found, granule) != shade"),
    (".size = GRANULE, .is_held = true", ".size = 2 * GRANULE, .is_held = true"),
    (".start = granule + REDZONE", ".start = granule"),
    ("block->is_held ? 2 : 1", "1"),
    ("granule + has, GRANULE - has", "granule + had, GRANULE - had"),
    (".size = has}", ".size = had}"),
    ("return had != has;", "return had > has;"),
    ("is_of_frame(shade) ? KIND_STACK : KIND_USER", "KIND_USER"),
    ("return shade_kind(shade);", "return KIND_USER;"),
    ("has != 0 ? found->granule + GRANULE", "has == 0 ? found->granule + GRANULE"),
    ("shade == SHADE_HEAP || shade == SHADE_FREED", "shade == SHADE_HEAP"),
    ("addressable_of(shade) != 0 ? granule :", "addressable_of(shade) == 0 ? granule :"),
    ("found->has_block ? say_block(found, to) : 0", "0"),
)

ALL = [
    Decisions("asan_judgement_c", ["run/tests/judged.c", "run/status.c"], "run", has_table=True),
    Decisions("asan_shades_c", ["recorder/tests/shades.c"], "recorder"),
    Decisions(
        "asan_plan_c", ["recorder/tests/said.c", "recorder/stream/saying.c"], "recorder", planted=WRONG_GROUPS
    ),
]


def ran(argv: List[str], folder: str) -> "subprocess.CompletedProcess[str]":
    return subprocess.run(argv, cwd=folder, stdout=subprocess.PIPE, stderr=subprocess.STDOUT, text=True)


# A command, and the folder that it runs in.
Step = Tuple[List[str], str]


def by_rt(crate: str) -> Tuple[str, Step]:
    """Returns a crate's static library, and what builds it and all below it."""
    folder = f"{TOP}/crates/{crate}"
    return f"{folder}/out/lib{crate}.a", (["rt", "lib"], folder)


def as_proved(crate: str, room: str) -> Tuple[str, Step]:
    """Returns a crate's static library, and what builds it over the libraries that are there."""
    libraries = rooms.Libraries(room, [], None)
    for name in rooms.crates_below(crate):
        libraries.take(name)
    base, kit, library = rooms.Base(room, crate), rooms.toolchain(), f"{room}/lib{crate}.a"
    words = [*base.words(), "--jobs", "1", "--links", f"{crate}=", "--crate-type", "staticlib"]
    words += ["--toolchain", f"{kit}/toolchain", "--backend", "llvm", "-o", library]
    return library, ([f"{kit}/bin/rattle", "build", *words], base.folder)


def built(one: Decisions, sources: List[str], library: str, program: str) -> List[str]:
    """What builds the program that compares these sources with a library."""
    compiler = shlex.split(os.environ.get("CC", "cc"))
    return [*compiler, *OPTIONS, f"-iquote{TOP}/{one.folder}", *sources, library, "-o", program]


def unseen(one: Decisions, room: str, library: str) -> str:
    """Returns the first wrong decision with which nothing differs, or nothing."""
    name, program = f"{room}/planted.c", f"{room}/compare_planted"
    with open(f"{TOP}/{one.sources[-1]}", encoding="utf-8") as file:
        right = file.read()
    for text, wrong in one.planted:
        if right.count(text) != 1:
            return f"{one.sources[-1]} has to have once: {text}"
        with open(name, "w", encoding="utf-8") as file:
            file.write(right.replace(text, wrong))
        made = ran(built(one, [*one.sources[:-1], name], library, program), TOP)
        if made.returncode or ran([program], TOP).returncode != 1:
            return f"nothing differs with: {wrong}\n{made.stdout[-2000:]}"
    return ""


def why_not(one: Decisions, room: str, is_proved: bool) -> str:
    """Returns the difference, or nothing."""
    library, step = as_proved(one.crate, room) if is_proved else by_rt(one.crate)
    program = f"{room}/compare_{one.crate}"
    steps = (step, (built(one, one.sources, library, program), TOP), ([program], TOP))
    printed = ""
    for argv, folder in steps:
        done = ran(argv, folder)
        printed = done.stdout
        if done.returncode:
            return f"{' '.join(argv)}:\n{printed[-6000:]}"
    table = f"{TOP}/{os.path.splitext(one.sources[0])[0]}.txt"
    if not one.has_table:
        return unseen(one, room, library)
    with open(table, encoding="utf-8") as file:
        is_same = file.read() == printed
    return "" if is_same else f"{table} has to be what {one.sources[0]} prints:\n{printed}"


def main(argv: List[str]) -> int:
    if argv not in ([], ["--as-proved"]):
        print("usage: tests/decisions.py [--as-proved]", file=sys.stderr)
        return 2
    passed = failed = 0
    with tempfile.TemporaryDirectory(prefix="asancol-decisions-") as room:
        for one in ALL:
            wrong = why_not(one, room, bool(argv))
            passed += not wrong
            failed += bool(wrong)
            print(f"{one.crate}: {wrong or 'as proved'}", flush=True)
    print(f"{passed} passed, {failed} failed")
    return 1 if failed else 0


if __name__ == "__main__":
    sys.exit(main(sys.argv[1:]))
