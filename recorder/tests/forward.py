"""Tests of the allocator as it goes forward: uses of blocks freed long ago are found, memory stays bounded, and nothing
is said of good programs."""

import glob
import os
from typing import Dict, NamedTuple, Tuple

from segments import segments_of
from support import TESTS, TOP, Compiler, Suite, expect, run

RUN = f"{TOP}/run/asancol-run"
# How many megabytes a process may have had at most, with its shadow and the allocator's notes.
MOST = 150
QUARANTINES = ("", "0", "100000")
BOUNDS: Tuple[Dict[str, str], ...] = ({}, {"ASANCOL_QUARANTINE": "0"})


class Found(NamedTuple):
    kinds: Dict[str, int]
    megabytes: int


def found(suite: Suite, folder: str, program: str, words: str, **settings: str) -> Found:
    """Runs it, and returns how many reports there are of each kind, and how much memory it had at most."""
    for old in glob.glob(f"{folder}/t*trace*"):
        os.unlink(old)
    ran = run([program, *words.split()], folder, ASANCOL_TRACE="t%p.trace", ASANCOL_FULL="0", **settings)
    expect((ran.returncode, ran.stderr), (0, b""), f"{words} with {settings}")
    kinds: Dict[str, int] = {}
    for front in sorted(it for it in glob.glob(f"{folder}/t*.trace") if ".segment-" not in it):
        for segment in segments_of(suite, front):
            expect(segment.is_closed(), True, segment.path)
            for line in (it.split() for it in segment.lines[:-1]):
                kind = f"{line[2]} {line[-1] if line[2] == 'free' else line[-3]}"
                kinds[kind] = kinds.get(kind, 0) + 1
    return Found(kinds, int(ran.stdout.split()[-1]))


def freed(number: int) -> Dict[str, int]:
    return {"load heap-use-after-free": number} if number else {}


def check_late(suite: Suite, folder: str, program: str) -> None:
    """Pointers that were freed 1.5 GB ago."""
    for threads in ("1", "4"):
        expect(found(suite, folder, program, f"late {threads}").kinds, freed(1000), f"in {threads} threads")


def check_run(suite: Suite, folder: str, program: str) -> None:
    """The same under asancol-run."""
    ran = run([RUN, "--json", "r.json", "--", program, "late", "4"], folder, ASANCOL=suite.asancol)
    expect(ran.returncode, 99, ran.stderr.decode()[-3000:])
    with open(f"{folder}/r.json", "rb") as file:
        text = file.read()
    expect((b"heap-use-after-free" in text, b"use-after-poison" in text), (True, False), text[-3000:])
    ran = run([RUN, "--", program, "forgotten"], folder, ASANCOL=suite.asancol)
    expect(b"  freed long ago: its exact size and its stacks are no longer kept\n" in ran.stderr, True, ran.stderr)


def check_many(suite: Suite, folder: str, program: str) -> None:
    """However much was freed, functions are known."""
    ran = run([RUN, "--", program, "many", "80"], folder, ASANCOL=suite.asancol)
    expect((ran.returncode, b" in use" in ran.stderr, b"modules" in ran.stderr), (99, True, False), ran.stderr)


def check_huge(suite: Suite, folder: str, program: str) -> None:
    """A freed block that is too large for a record is poison, and has its size and stacks."""
    ran = run([RUN, "--", program, "huge"], folder, ASANCOL=suite.asancol)
    wanted = (b": use-after-poison: load of 1 byte", b"is byte 1000 of a freed block of 5368709120 bytes\n",
              b"  freed at\n", b"in huge ")
    expect((ran.returncode, [it for it in wanted if it not in ran.stderr]), (99, []), ran.stderr.decode())


def check_twice(suite: Suite, folder: str, program: str) -> None:
    """Of two threads that free a block at once one is told."""
    expect(found(suite, folder, program, "twice").kinds, {"free double-free": 500}, "faults")


def check_memory(suite: Suite, folder: str, program: str) -> None:
    """Memory stays bounded, whoever frees."""
    for words in ("loop", "pass"):
        for settings in BOUNDS:
            got = found(suite, folder, program, words, **settings)
            expect((got.kinds, got.megabytes < MOST), ({}, True), f"{words}: {got.megabytes} MB with {settings}")


def check_alive(suite: Suite, folder: str, program: str) -> None:
    """Many threads end without waiting for each other."""
    expect(found(suite, folder, program, "alive 10000").kinds, {}, "faults")


def check_good(suite: Suite, folder: str, program: str) -> None:
    """Good accesses have no report, with any quarantine."""
    for words in ("give", "calls", "handlers 1", "handlers 4", "distinct", "limited"):
        for quarantine in QUARANTINES:
            settings = {"ASANCOL_QUARANTINE": quarantine} if quarantine else {}
            expect(found(suite, folder, program, words, **settings).kinds, {}, f"{words} with {settings}")


def check_freed(suite: Suite, folder: str, program: str) -> None:
    """Uses of freed blocks are found in children, after threads have ended, in large blocks, if memory is locked, once
    notes have gone back, and after handlers have jumped out of any instruction."""
    for words, number in (("forks 3", 300), ("shorts 2000", 20), ("sizes", 24), ("locked", 1), ("locked_by_user", 1),
                          ("forgotten", 8), ("stepped", 1)):
        expect(found(suite, folder, program, words).kinds, freed(number), words)


def tests(suite: Suite, compiler: Compiler) -> None:
    program = suite.built(compiler.c, [f"{TESTS}/forward.c"], f"forward-{compiler}", "-O1", "-w", "-pthread")
    for name, check in (("late", check_late), ("run", check_run), ("many", check_many), ("huge", check_huge),
                        ("twice", check_twice), ("memory", check_memory), ("good", check_good), ("alive", check_alive),
                        ("freed", check_freed)):
        suite.test(f"{compiler} forward {name}", check, program)
