"""Tests of `quick.py`: failed and omitted tests are counted and named."""

import contextlib
import io
import os
import re
import shutil
import subprocess
import sys
import tempfile
import time
from typing import Callable, List, Tuple

import quick
from completions import TOP
from testing import Failure, Suite, compilers_there, environment, expect, expect_in, wait_until
from testing.programs import call, path_without
from testing.programs import run as run_of_test
from testing.suite import Which
from testing.watch import LONGEST, Watch


def ended(*commands: str) -> Tuple[int, str]:
    """Returns the status and the text with which parts end that run these commands of a shell."""
    results = quick.Results()
    with contextlib.redirect_stdout(io.StringIO()) as said:
        for command in commands:
            results.run("part", ["sh", "-c", command])
        status = results.finish()
    return status, said.getvalue()


def parts_are_counted(_: str) -> None:
    """A part fails by its counts or by its status, and what it leaves out is named."""
    good, bad = "echo 2 passed, 0 failed", "echo FAILED one: why; echo 1 passed, 1 failed; false"
    expect(ended(good, good)[1].splitlines()[-1], "4 passed, 0 failed, 0 skipped", "counts")
    for commands, wanted in (
        ((good,), 0),
        ((good, bad), 1),
        ((good, "false"), 1),
        ((good, f"{good}; false"), 1),
        (("true",), 1),
    ):
        expect(ended(*commands)[0], wanted, f"the status of {commands}")
    expect_in(ended(bad)[1], "FAILED one: why\n", "1 passed, 1 failed, 0 skipped\n")
    left_out = "echo left out: clang is not there; echo left out: gcc runs: clang is not there"
    said = ended(f"{left_out}; {good}")[1]
    expect_in(said, "skipped: 2: clang is not there\n", "2 passed, 0 failed, 2 skipped\n")


def quick_ones_and_the_rest_are_all(_: str) -> None:
    """Each test is quick or of the rest, by the rule."""
    tests = Suite()
    quick_ones = ["any", "any -O2", "any_-O0", *(f"{it} runs" for it in compilers_there()[:1])]
    rest = ["any -O0", "with text -O3 in it", *(f"runs, {it}" for it in compilers_there()[1:])]
    for name in [*quick_ones, *rest]:
        tests.test(name, print)
    tests.long_test("long", print)
    for which, wanted in ((Which.QUICK, quick_ones), (Which.REST, [*rest, "long"])):
        tests.which = which
        expect([it.name for it in tests.chosen()], wanted, which)


def left_running_is_not_waited_for(_: str) -> None:
    """A part has ended when its command has, or is killed since it takes too long, whatever that leaves running."""
    began = time.monotonic()
    expect(ended("sleep 30 & echo 2 passed, 0 failed")[0], 0, "the status")
    late = quick.ended(["sh", "-c", "echo begun; sleep 30; true"], longest=0.5)
    expect((late.status, late.printed), (-9, "begun\n"), "one that is late")
    expect(time.monotonic() - began < 20, True, "at once")


def hanging_test_fails(_: str) -> None:
    """A test that hangs fails by its name: at once if what it runs can be killed, and else with all others."""
    tests = Suite()
    tests.watch = Watch(longest=0.5, grace=60, between=0.1)
    holds_the_pipe = ["sh", "-c", "sleep 60 & exec sleep 60"]

    def hangs(_: object, folder: str) -> None:
        run_of_test(holds_the_pipe, folder)

    tests.test("hangs", hangs)
    tests.test("passes", lambda *_: None)
    with contextlib.redirect_stdout(io.StringIO()):
        tests.run_all()
    by_name = {it.name: it.wrong for it in tests.results}
    expect(by_name["passes"], "", "the other test")
    expect_in(by_name["hangs"], "took more than 0.5 s", "sleep, sleep")
    alone = f"""import sys; sys.path.insert(0, {TOP!r})
import time
from testing import Suite
from testing.watch import Watch
tests = Suite()
tests.watch = Watch(longest=0.3, grace=0.3, between=0.1)
tests.test("waits for nothing", lambda *_: time.sleep(60))
tests.run_all()"""
    ran = call([sys.executable, "-c", alone], capture_output=True, text=True)
    expect(ran.returncode, 1, "the status")
    expect_in(ran.stdout, "FAILED waits for nothing: it hangs", "0 passed, 1 failed\n")


def failed_test_runs_again(_: str) -> None:
    """A test that fails beside others and passes alone is named and counts as passed, unless many fail."""
    for count, passed in ((3, 3), (4, 0)):
        began: List[str] = []
        tests = Suite()
        for number in range(count):
            name = f"number {number}"

            def fails_at_first(_: object, folder: str, name: str) -> None:
                began.append(name)
                expect(began.count(name), 2, name)

            tests.test(name, fails_at_first, name)
        said = io.StringIO()
        with contextlib.redirect_stdout(said):
            tests.run_all()
        expect(sum(1 for it in tests.results if not it.wrong), passed, "those that passed")
        expect("passed alone: number 1\n" in said.getvalue(), passed > 0, said.getvalue())


def late_program_is_killed(_: str) -> None:
    """A program that takes too long is killed with all that it has started, and it is said what each was at."""
    began, said = time.monotonic(), ""
    try:
        call(["sh", "-c", "sh -c 'sleep 61; true' & echo begun; sleep 60; true"], capture_output=True, timeout=0.5)
    except Failure as late:
        said = str(late)
    expect_in(said, "took more than 0.5 s: sh ", "it had printed b'begun\\n'")
    numbers = re.findall(r"\w+ (\d+) in \w+", said)
    expect((len(numbers), said.count("sleep ")), (4, 2 + said.count("sleep 6")), said)
    wait_until(lambda: not any(os.path.exists(f"/proc/{it}/exe") for it in numbers), "their ends")
    expect(time.monotonic() - began < 20, True, "at once")


def left_thread_fails(_: str) -> None:
    """A thread that a test has left fails by its name, and the suite ends."""
    alone = f"""import sys; sys.path.insert(0, {TOP!r})
import argparse, threading, time
from testing import Suite
from testing.suite import Which, run
def leave(*_):
    threading.Thread(target=time.sleep, args=(60,), name="sleeper").start()
class Left(Suite):
    def fail_for_threads(self, patience=0.1):
        return super().fail_for_threads(patience)
def make(words):
    tests = Left(words)
    tests.test("leaves a thread", leave)
    return tests
run(make, argparse.Namespace(words=[], which=Which.ALL, list=False, junit=None))"""
    ran = call([sys.executable, "-c", alone], capture_output=True, text=True, timeout=30)
    expect(ran.returncode, 1, "the status")
    expect_in(ran.stdout, "FAILED sleeper: this thread was left by a test", "1 passed, 1 failed\n")


def copy_of_tree(folder: str) -> str:
    """Copies what tells of the crates, and what the fake is tested with."""
    left = shutil.ignore_patterns("out", "proofs")
    for name in ("tests", "testing", "tools", "common", "examples/golden", "crates"):
        shutil.copytree(f"{TOP}/{name}", f"{folder}/{name}", ignore=left)
    for name in ("crates.txt", "Makefile", "install.mk"):
        shutil.copy(f"{TOP}/{name}", folder)
    return folder


def run_in(folder: str, *argv: str, **settings: str) -> "subprocess.CompletedProcess[str]":
    argv = (sys.executable, f"{folder}/tools/quick.py", *argv)
    own = environment("MAKE", **settings)
    return call(argv, env=own, stdout=subprocess.PIPE, text=True, timeout=LONGEST)


def wrong_fake_fails(_: str) -> None:
    """Where the fake of asancol is wrong in a redzone, that is found."""
    with tempfile.TemporaryDirectory() as folder:
        path = f"{copy_of_tree(folder)}/testing/fake_asancol.c"
        with open(path, encoding="utf-8") as file:
            text = file.read()
        with open(path, "w", encoding="utf-8") as file:
            file.write(text.replace("HEAP_REDZONE = 0xfa", "HEAP_REDZONE = 0xfb"))
        ran = run_in(folder, "fake: fuzz")
        expect((ran.returncode, "FAILED batch" in ran.stdout), (1, True), ran.stdout)


def runs_without_toolchain(_: str) -> None:
    """Without rt the crates and the program are left out, and the rest runs."""
    with tempfile.TemporaryDirectory() as folder:
        path = path_without("rt", folder)
        ran = run_in(copy_of_tree(f"{folder}/tree"), "crate", "program", "fuzz", PATH=path)
        expect(ran.returncode, 0, ran.stdout)
        expect_in(ran.stdout, "rt is not there: the tests of the crates\n")
        expect_in(ran.stdout, "rt is not there, nor ./asancol: the tests of the program\n")


# Name, what it does, and the programs that it needs.
TESTS: List[Tuple[str, Callable[[str], None], Tuple[str, ...]]] = [
    ("make test: counts", parts_are_counted, ()),
    ("make test: what is left running", left_running_is_not_waited_for, ()),
    ("make test: what hangs", hanging_test_fails, ()),
    ("make test: what fails beside others", failed_test_runs_again, ()),
    ("make test: what takes too long", late_program_is_killed, ()),
    ("make test: what tests leave", left_thread_fails, ()),
    ("make test: the rule", quick_ones_and_the_rest_are_all, ()),
    ("make test: a wrong fake", wrong_fake_fails, ("cc",)),
    ("make test: without the toolchain", runs_without_toolchain, ("cc", "git")),
]
