#!/usr/bin/env python3
"""Explores the orders in which threads can take the steps of the stream: each run of a scenario is one order, and the
records must be in the segments of all of them (explore/world.c).

usage: recorder/tests/exploring.py [--compiler CC] [--runs N] [--preemptions N] [--seed N] [--rareness N] [NAME..]

It builds the stream's own sources with the explorer and runs the scenarios of these names, or all. A search in depth
takes all orders with this many preemptions (2), at most N runs. With --seed the orders are drawn instead, with a
preemption at one of this many points (8). The steps of a run that is wrong are printed, and the status is 1.
"""

import os
import subprocess
import sys
import tempfile
from typing import List

sys.path.insert(0, f"{os.path.dirname(os.path.realpath(__file__))}/../..")  # where `testing` is

from support import RECORDER, TESTS, Compiler, Suite, expect
from testing.programs import Started, call
from testing.watch import LONGEST

# The sources that threads run at once, and the explorer.
SOURCES = [f"{RECORDER}/stream/{it}.c" for it in ("state", "record", "regions", "places", "saying", "group",
                                                  "watched", "opening", "growing", "keeping", "sending", "switching",
                                                  "suspending", "holes", "held", "ending", "segments")]
SOURCES.append(f"{RECORDER}/heap/snapshot.c")
WORLD, EXPLORER = f"{TESTS}/explore/world.c", f"{TESTS}/explore/explore.c"
FLAGS = ["-std=gnu11", "-g", "-O1", "-D_GNU_SOURCE=", "-fno-strict-aliasing", "-iquote", RECORDER, "-iquote",
         os.path.dirname(RECORDER)]
POINTS = ["-include", f"{TESTS}/explore/tables.h", "-include", f"{TESTS}/explore/explore.h"]
WARNINGS = ["-Wall", "-Wextra", "-Wconversion"]

# Orders that are drawn: those that a search would come to last.
DRAWN = ["--preemptions", "40", "--rareness", "5", "--runs", "6000"]


def build_explorer(compiler: str, folder: str) -> str:
    """Builds it. The steps of the stream have no warnings of their own here: they are in macros."""
    objects = []
    for source, flags in [(WORLD, POINTS + WARNINGS), (EXPLORER, WARNINGS), *((it, POINTS + ["-w"]) for it in SOURCES)]:
        objects.append(f"{folder}/{os.path.basename(source)}.o")
        call([compiler, *FLAGS, *flags, "-c", source, "-o", objects[-1]], check=True)
    call([compiler, *objects, "-o", f"{folder}/explore"], check=True)
    return f"{folder}/explore"


def explore(program: str, argv: List[str]) -> None:
    ran = call([program, *argv], stdout=subprocess.PIPE, stderr=subprocess.STDOUT, timeout=LONGEST)
    expect((ran.returncode, b"WRONG" in ran.stdout), (0, False), ran.stdout.decode()[-6000:])


def check_searched(_suite: Suite, folder: str, compiler: Compiler) -> None:
    """All orders of each scenario with few preemptions, or the first this many."""
    explore(build_explorer(compiler.name, folder), [])


def check_drawn(_suite: Suite, folder: str, compiler: Compiler) -> None:
    """Orders with many preemptions."""
    explore(build_explorer(compiler.name, folder), [*DRAWN, "--seed", "1"])


def tests(suite: Suite, compiler: Compiler) -> None:
    suite.long_test(f"{compiler} orders of steps, searched", check_searched, compiler)
    suite.long_test(f"{compiler} orders of steps, drawn", check_drawn, compiler)


def main() -> int:
    argv, compiler = sys.argv[1:], "cc"
    if argv[:1] == ["--compiler"]:
        compiler, argv = argv[1], argv[2:]
    if argv[:1] in (["-h"], ["--help"]):
        print(__doc__)
        return 0
    with tempfile.TemporaryDirectory(prefix="asancol-explore-") as folder:
        with Started([build_explorer(compiler, folder), *argv]) as explorer:
            return explorer.wait(None)


if __name__ == "__main__":
    sys.exit(main())
