"""A suite of tests: which there are, which of them are run, and what came of each.

A folder's tests are found in its modules: what a module's function `tests` adds by `suite.test(NAME, FUNCTION, ..)`, a
test for each compiler, level or row, and except the recorder's each function under `@test`, with its own name. All run
side by side, one on each processor, each in its own folder. What several of them need, such as a built program, is
`Later`: it is made once, before them, and only if one of them was chosen.
"""

import argparse
import faulthandler
import functools
import importlib
import os
import re
import shutil
import signal
import sys
import tempfile
import threading
import time
import xml.etree.ElementTree as xml
from concurrent.futures import Executor, Future, ThreadPoolExecutor, as_completed
from enum import Enum
from types import ModuleType
from typing import Any, Callable, List, NamedTuple, Optional, Sequence

from .expectations import LeftOut
from .programs import CC, SOON, TOP, compilers_there
from .watch import Watch, kill_all

# Before the name of a test that failed beside others, and passed alone.
ALONE = "passed alone: "

# How far a suite is, so often, in seconds; quick.py passes it on.
PROGRESS, PROGRESS_EVERY = "so far", 30

HAS_TESTS = re.compile(r"^(?:def tests\(|@\w*test$)", re.M)
# What no XML may have.
NO_XML = re.compile("[^\t\n\x20-\ud7ff\ue000-\ufffd\U00010000-\U0010ffff]")


class Later:
    """What the first test that needs it makes, and no test if none does."""

    def __init__(self, value: str, make: Callable[..., Any], *arguments: Any, **named: Any) -> None:
        self.value, self.make, self.arguments, self.named = value, make, arguments, named
        self.making = threading.Lock()
        self.is_made = False
        self.wrong: Optional[Exception] = None

    def made(self) -> str:
        with self.making:
            if not self.is_made:
                self.is_made = True
                try:
                    self.make(*self.arguments, **self.named)
                except Exception as error:  # whatever it is, each test that needs this has failed
                    self.wrong = error
        if self.wrong:
            raise self.wrong
        return self.value


class Test(NamedTuple):
    name: str
    run: Callable[..., None]
    arguments: Sequence[Any]
    is_long: bool = False


class Result(NamedTuple):
    """What came of a test: what went wrong, or why it was left out, or neither."""

    name: str
    module: str
    seconds: float
    wrong: str = ""
    left_out: str = ""


def test(function: Callable[..., None]) -> Callable[..., None]:
    """Says that a function is a test, with its own name."""
    function.is_test = True  # type: ignore
    return function


class Which(Enum):
    """Which tests are run, as the command line says it."""

    ALL = ""
    QUICK = "--quick"
    REST = "--rest"


# In the name of a test at another level of optimization than that at which most programs are built.
OTHER_LEVEL = re.compile(r" -O(?!2\b)\w")


def is_quick(test: Test) -> bool:
    """Returns whether a test is short, and neither by another compiler than the first that is there nor at another
    level than -O2, as its name says."""
    by_others = set(re.findall(r"[\w+]+", test.name)) & set(compilers_there()[1:])
    return not (test.is_long or by_others or OTHER_LEVEL.search(test.name))


class Suite:
    """Tests, with what they share. A word chooses the test whose name it is, or else those whose names have it; without
    words, all are chosen."""

    most = 64  # that run at a time
    most_again = 3  # of those that failed are run once more

    def __init__(self, words: Sequence[str] = ()) -> None:
        self.words = words
        self.which = Which.ALL
        self.tests: List[Test] = []
        self.results: List[Result] = []
        self.watch = Watch()

    def __enter__(self) -> "Suite":
        return self

    def __exit__(self, *_: object) -> None:
        self.clean_up()

    def prepare(self) -> None:
        """The preparation before any test runs."""

    def clean_up(self) -> None:
        """The work after all tests have run."""

    # ---- which tests there are

    def test(self, name: str, run: Callable[..., None], *arguments: Any) -> None:
        self.tests.append(Test(name, run, arguments))

    def long_test(self, name: str, run: Callable[..., None], *arguments: Any) -> None:
        """Adds a test that takes a processor for more than ten seconds."""
        self.tests.append(Test(name, run, arguments, True))

    def discover(self, folder: str) -> None:
        """Finds the tests in the modules of a folder, which are imported as those of a script there."""
        if folder not in sys.path:
            sys.path.insert(0, folder)
        for name in sorted(os.listdir(folder)):
            stem, end = os.path.splitext(name)
            if end == ".py":
                with open(f"{folder}/{name}", encoding="utf-8") as file:
                    has_tests = HAS_TESTS.search(file.read())
                if has_tests:
                    self.collect(importlib.import_module(stem))

    def marked(self, module: ModuleType) -> List[Callable[..., None]]:
        """Returns the functions of a module that are under `@test`."""
        found = [it for it in vars(module).values() if getattr(it, "is_test", False)]
        return [it for it in found if it.__module__ == module.__name__]

    def collect(self, module: ModuleType) -> None:
        for function in self.marked(module):
            self.test(function.__name__, function)
        if hasattr(module, "tests"):
            module.tests(self)

    def chosen(self) -> List[Test]:
        names = {it.name for it in self.tests}

        def is_asked(name: str) -> bool:
            return not self.words or any(word == name if word in names else word in name for word in self.words)

        asked = [it for it in self.tests if is_asked(it.name)]
        return [it for it in asked if self.which is Which.ALL or is_quick(it) == (self.which is Which.QUICK)]

    # ---- how they run

    def processors(self) -> int:
        return min(self.most, len(os.sched_getaffinity(0)))

    def executor(self) -> Executor:
        return ThreadPoolExecutor(self.processors())

    def call(self, test: Test, folder: str) -> None:
        """Calls the function of a test."""
        arguments = [it.made() if isinstance(it, Later) else it for it in test.arguments]
        test.run(self, folder, *arguments)

    def run_test(self, test: Test) -> Result:
        began = time.monotonic()
        folder = os.path.realpath(tempfile.mkdtemp(prefix="asancol-test-"))
        wrong = left_out = ""
        self.watch.begin(test.name, folder)
        try:
            self.call(test, folder)
        except LeftOut as why:
            left_out = str(why)
        except Exception as error:  # whatever it is, the test has failed
            wrong = f"{type(error).__name__}: {error}"
        hung = self.watch.end(folder)
        if hung:
            wrong, left_out = f"{hung}\n{wrong}", ""
        if wrong:
            kill_all(folder)
        shutil.rmtree(folder, ignore_errors=True)
        return Result(test.name, test.run.__module__, time.monotonic() - began, wrong, left_out)

    def run_all(self) -> None:
        chosen = self.chosen()
        if self.words and not chosen:
            print(f"no test has a name with {' or '.join(self.words)}: --list prints the names", flush=True)
        self.prepare()
        shared = dict.fromkeys(it for test in chosen for it in test.arguments if isinstance(it, Later))
        with self.watch:
            with self.executor() as pool:
                for each in shared:
                    pool.submit(each.made)
                running: List["Future[Result]"] = [pool.submit(self.run_test, test) for test in chosen]
                said = time.monotonic()
                try:
                    for ended in as_completed(running):
                        self.take(ended.result())
                        if time.monotonic() - said > PROGRESS_EVERY:
                            print(f"{PROGRESS}: {len(self.results)} of {len(chosen)} tests", flush=True)
                            said = time.monotonic()
                except BaseException:
                    pool.shutdown(cancel_futures=True)
                    raise
            self.run_again(chosen)

    def run_again(self, chosen: Sequence[Test]) -> None:
        """Runs once more what has failed, if it is little and no test was asked for by name, now that nothing runs
        beside it: so no deadline passes because the machine is busy. What passes alone counts as passed, and is
        named."""
        failed = {it.name: it for it in self.results if it.wrong}
        if self.words or len(failed) > self.most_again:
            return
        for test in (it for it in chosen if it.name in failed):
            with self.executor() as pool:
                again = pool.submit(self.run_test, test).result()
            if not again.wrong:
                print(f"{ALONE}{test.name}", flush=True)
                self.results[self.results.index(failed[test.name])] = again

    def take(self, result: Result) -> None:
        """Keeps a result, and says it if the test has not passed."""
        self.results.append(result)
        if result.wrong:
            print(f"FAILED {result.name}: {result.wrong}", flush=True)
        elif result.left_out:
            print(f"left out: {result.name}: {result.left_out}", flush=True)

    # ---- what came of them

    def fail_for_threads(self, patience: float = SOON) -> bool:
        """Counts each thread that tests have left as a failure. Returns whether there is one: who ends this process as
        usual waits for it for ever."""
        left = [it for it in threading.enumerate() if it is not threading.current_thread() and not it.daemon]
        for each in left:
            each.join(patience)
        left = [it for it in left if it.is_alive()]
        for each in left:
            self.take(Result(each.name, __name__, 0, "this thread was left by a test, and does not end"))
        if left:
            faulthandler.dump_traceback(all_threads=True)
        return bool(left)

    def finish(self) -> int:
        """Prints the counts, and returns the status to end with."""
        failed = sum(1 for it in self.results if it.wrong)
        passed = sum(1 for it in self.results if not it.wrong and not it.left_out)
        print(f"{passed} passed, {failed} failed", flush=True)
        return 0 if failed == 0 and (passed > 0 or self.which is Which.REST) else 1

    def write_junit(self, path: str) -> None:
        counts = {"tests": len(self.results), "failures": sum(1 for it in self.results if it.wrong),
                  "skipped": sum(1 for it in self.results if it.left_out)}
        root = xml.Element("testsuite", {"name": "asancol", **{name: str(count) for name, count in counts.items()}})
        for it in self.results:
            case = xml.SubElement(root, "testcase", name=it.name, classname=it.module, time=f"{it.seconds:.3f}")
            if it.wrong:
                text = NO_XML.sub("?", it.wrong)
                xml.SubElement(case, "failure", message=text.split("\n")[0][:200]).text = text
            elif it.left_out:
                xml.SubElement(case, "skipped", message=it.left_out)
        xml.ElementTree(root).write(path, encoding="utf-8", xml_declaration=True)


def reader_of(about: Optional[str]) -> argparse.ArgumentParser:
    """Returns what reads the command line of a suite, whose help is this text, with a line `usage: ..`."""
    text = about or ""
    reader = argparse.ArgumentParser(usage=re.findall(r"usage: (.*)", text)[0], description=text,
                                     formatter_class=argparse.RawDescriptionHelpFormatter, allow_abbrev=False)
    reader.add_argument("--list", action="store_true", help="print the names of the tests, and run none")
    reader.add_argument("--junit", metavar="FILE", help="write what came of each test, as JUnit XML")
    which = reader.add_mutually_exclusive_group()
    add = functools.partial(which.add_argument, dest="which", action="store_const", default=Which.ALL)
    add("--quick", const=Which.QUICK, help="run short tests alone, by one compiler, at -O2 if they have a level")
    add("--rest", const=Which.REST, help="run all but the quick ones")
    return reader


def read(reader: argparse.ArgumentParser) -> argparse.Namespace:
    """Reads the command line. What follows the other arguments are words, also those like `-O0`."""
    request, words = reader.parse_known_args()
    request.words = words
    return request


def handle_ignored() -> None:
    """Has the programs of tests find the defaults of signals that this process ignores, as by nohup or in the
    background of a script: what has a handler here begins as the default there."""
    by_python = {signal.SIGPIPE, signal.SIGXFSZ}
    for number in signal.valid_signals() - by_python:
        if signal.getsignal(number) == signal.SIG_IGN:
            signal.signal(number, lambda *_: None)


def run(make: Callable[[Sequence[str]], Suite], request: argparse.Namespace) -> int:
    """Runs or lists the suite that is made with the arguments of a command line."""
    handle_ignored()
    with make(request.words) as suite:
        suite.which = request.which
        if request.list:
            print("\n".join(it.name for it in suite.chosen()))
            return 0
        suite.run_all()
        has_threads = suite.fail_for_threads()
        suite.clean_up()
        if request.junit:
            suite.write_junit(request.junit)
        status = suite.finish()
        if has_threads:
            os._exit(status)
        return status


def expect_built(asancol: str) -> None:
    """Ends this if a program is not there that all tests of the C parts need."""
    for path, command in ((asancol, "make"), (CC, "make recorder"), (f"{TOP}/run/asancol-run", "make run")):
        if not os.access(path, os.X_OK):
            sys.exit(f"{os.path.relpath(path)} is not built: run `{command}`")


def main(make: Callable[[str, Sequence[str]], Suite], about: Optional[str]) -> int:
    """Runs the suite of a program: the first argument is its path."""
    reader = reader_of(about)
    reader.add_argument("asancol", metavar="ASANCOL")
    request = read(reader)
    if not request.list:
        expect_built(request.asancol)
    return run(lambda words: make(os.path.abspath(request.asancol), words), request)
