"""Tests of the end of a process: nothing that it does there is missed, as long as code of it can run. Each moment is
also one of AddressSanitizer's."""

import os
import platform
import re
from typing import List

from hub import check, one  # what a hub gets
from support import MARK, TESTS, Compiler, Later, Suite, expect, leave_out, reports, run
from testing.side import EXIT

SOURCE = f"{TESTS}/ends.c"
with open(SOURCE, encoding="utf-8") as file:
    MOMENTS = re.findall(r"MOMENT\((\w+)\)[,}]", file.read())
# In a static program nothing is closed, and a dlopen is none.
NOT_STATIC = ("in_a_library_that_is_closed", "in_fini")
SOUND = ("with_nothing_wrong",)
# In a static program an _exit is not seen, and says so: there is no close.
BY__EXIT = ("before_an_exit_in_a_quick_handler", "before_an_exit_in_a_handler")


def build(compiler: Compiler, folder: str) -> None:
    """By asancol-cc, statically too, and with AddressSanitizer."""
    shared = ["-shared", "-fPIC", f"{TESTS}/ends_library.c"]
    flags = ["-w", "-pthread", SOURCE, "-Wl,-fini=last_of_program"]
    names = ["-Dlibrary_at_exit=plugin_at_exit", "-Dlibrary_destructor=plugin_destructor"]
    for name, argv, native in (("", (), False), ("-sanitized", ["-fsanitize=address"], True)):
        made = f"{folder}/{compiler}{name}"
        os.makedirs(made)
        compiler.c(made, shared, "libends.so", *argv, native=native)
        compiler.c(made, shared, "libended.so", *names, *argv, native=native)
        compiler.c(made, [f"{made}/libends.so"], "ends", *flags, *argv, native=native)
    compiler.c(f"{folder}/{compiler}", [f"{TESTS}/ends_library.c"], "static", "-static", *flags)


def wanted(name: str) -> List[str]:
    return [] if name in SOUND else [MARK]


def check_file(suite: Suite, folder: str, programs: str, program: str, name: str) -> None:
    """The trace has a close, and the fault before it."""
    ran = run([f"./{program}", name], programs, ASANCOL_TRACE=f"{folder}/t.trace")
    expect((ran.returncode, ran.stderr), (0, b""), name)
    _, texts, end = reports(suite.asancol, f"{folder}/t.trace")
    fate = "malformed" if program == "static" and name in BY__EXIT else "closed"
    expect((texts, end.split()[0]), (wanted(name), fate), name)


def check_hub(suite: Suite, folder: str, programs: str, program: str, name: str) -> None:
    """A hub has all, by what it is told of the end."""
    os.symlink(f"{programs}/libended.so", f"{folder}/libended.so")
    peer = one(folder, [f"{programs}/{program}", name])
    side = peer.side()
    _, texts, _ = check(suite, folder, peer)
    events = len(peer.trace().events)
    expect((texts, side.ending, side.events <= events), (wanted(name), EXIT, True), name)
    expect(side.has_needed(events), True, f"that all that is needed of {name} is there")


def check_sanitizer(suite: Suite, folder: str, programs: str, name: str) -> None:
    ran = run(["./ends", name], f"{programs}-sanitized", ASAN_OPTIONS="detect_leaks=0")
    expect(b"heap-buffer-overflow" in ran.stderr, name not in SOUND, f"{name}: {ran.stderr.decode()}")


# Steps from where a record has its place: up to its end, and some more.
STEPS = (*range(26), *range(26, 301, 25))
WAYS = {"exec": "closed", "_exit": "closed", "raise": ""}


def check_interrupted(suite: Suite, folder: str, compiler: Compiler, way: str) -> None:
    """A handler that has interrupted the writer of a record does not wait for that record at the end, at any step, as
    it does for those of other threads by a thousand yields. A signal's end looks for a lock once."""
    compiler.c(folder, [f"{TESTS}/stepped.c"], "stepped", native=True)
    compiler.c(folder, [f"{TESTS}/interrupted.c"], "interrupted", "-w", "-pthread")
    for steps in STEPS:
        ran = run(["./stepped", str(steps), "./interrupted", way], folder, ASANCOL_TRACE=f"{folder}/t.trace")
        if ran.returncode == 2:
            leave_out(f"a handler at a step: {ran.stderr.decode().strip()}")
            return
        expect((int(ran.stdout) <= 1, ran.returncode), (True, 0), f"{steps} steps: {ran.stdout!r}")
        _, texts, end = reports(suite.asancol, f"{folder}/t.trace")
        expect((len(texts) >= 1, WAYS[way] in end), (True, True), f"{steps} steps: {end}")
        os.unlink(f"{folder}/t.trace")


def tests(suite: Suite, compiler: Compiler) -> None:
    for way in WAYS if platform.machine() == "x86_64" else ():
        suite.long_test(f"{compiler} ends by {way} in a handler inside a record", check_interrupted, compiler, way)
    programs = Later(f"{suite.folder}/{compiler}", build, compiler, suite.folder)
    for name in MOMENTS:
        suite.test(f"{compiler} ends {name}", check_file, programs, "ends", name)
        suite.test(f"{compiler} ends {name} under a hub", check_hub, programs, "ends", name)
        if name not in NOT_STATIC:
            suite.test(f"{compiler} ends {name} in a static program", check_file, programs, "static", name)
        if compiler.has_sanitizer:
            suite.test(f"{compiler} ends {name} with AddressSanitizer", check_sanitizer, programs, name)
