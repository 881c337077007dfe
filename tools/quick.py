#!/usr/bin/env python3
"""Runs the tests in some minutes, and proves nothing.

usage: tools/quick.py [--checked] [WORD..]

Side by side run, by as many jobs as there are processors:

- the tests of the crates, by `rt try --test`;
- runs of the program and some thousand draws of `fuzz.py`, with a program that `rt try` builds: it
  has checks in the place of its proof;
- once the C programs are built, the tests of the recorder and of asancol-run that are quick, which
  `testing/suite.py` says by a rule, and those of the packages. For them a fake of asancol,
  `testing/fake_asancol.c`, checks recordings, since a build by `rt try` takes 100 times as
  long. The fake itself is compared with the documents, as the program is.

If ./asancol is up to date, which is proved, it takes the place of both. With --checked it has to
be, and what `make check` has run is left out: the tests of the crates and those of the program.

Words choose the parts whose names have one of them: `crate NAME`, `program`, `fake: fuzz`,
`fake: runs`, `recorder`, `asancol-run` and `packages`. A line says when a part begins, one a minute
how far it is, and another one how it ended. Skipped ones come after them, with reasons. The last
line is 'N passed, N failed, N skipped'. The status is 0 if something passed and nothing failed.
"""

import argparse
import os
import re
import resource
import shutil
import subprocess
import sys
import tempfile
import threading
import time
from collections import Counter
from concurrent.futures import Future, ThreadPoolExecutor
from typing import Any, Iterator, List, NamedTuple, Optional, Sequence

sys.path.insert(0, f"{os.path.dirname(os.path.realpath(__file__))}/..")  # where `testing` is

import gate
from files import TOP
from testing import environment
from testing.programs import killed_after
from testing.suite import ALONE, PROGRESS

COUNTS = re.compile(r"(\d+) passed[,;] (\d+) failed")
LEFT_OUT = re.compile(r"^left out: (.*)$", re.M)
PASSED_ALONE = re.compile(rf"^{ALONE}.*$", re.M)
# Lines that tell nothing of a failure.
NO_FAILURE = re.compile(rf"left out: |test .* ok$|{PROGRESS}: ")
FAR = re.compile(rf"^{PROGRESS}: .*$", re.M)
# How often it is said how far a part is, in seconds.
SAID_EVERY = 60

# Some thousand traces, the same each time.
DRAWS = ["--draws", "4000", "--seed", "1"]

PROVED = f"{TOP}/asancol"

# How much of what a part printed is shown if it fails: its last bytes.
TAIL = 6000

# A test of a crate may take so long. Nothing is measured by it.
PATIENCE = "600"
# So may a part, in seconds.
LONGEST = 3600


def processors() -> int:
    return len(os.sched_getaffinity(0))


class Ended(NamedTuple):
    """A command that has ended: its status, what it printed, and the processor seconds that it took
    with all that it waited for."""

    status: int
    printed: str
    seconds: float


def say_how_far(name: str, descriptor: int, is_over: threading.Event) -> None:
    """Passes on what a part has printed last of how far it is."""
    while not is_over.wait(SAID_EVERY):
        size = os.fstat(descriptor).st_size
        lines = FAR.findall(os.pread(descriptor, size, 0).decode(errors="replace"))
        print(f"{name}: {lines[-1] if lines else 'still runs'}", flush=True)


def ended(argv: List[str], folder: str = TOP, longest: float = LONGEST, name: str = "") -> Ended:
    """Runs a command and takes all that it prints until it ends, whatever it leaves running. It
    finds no settings of make or asancol. If it takes longer, it is killed. With a name it is said
    how far it is."""
    with tempfile.TemporaryFile("w+", errors="replace") as file, subprocess.Popen(
        argv,
        cwd=folder,
        env=environment("MAKE", "MFLAGS"),
        stdin=subprocess.DEVNULL,
        stdout=file,
        stderr=subprocess.STDOUT,
    ) as command:
        is_over = threading.Event()
        if name:
            threading.Thread(target=say_how_far, args=(name, file.fileno(), is_over), daemon=True).start()
        with killed_after(command.pid, longest):
            _, status, used = os.wait4(command.pid, 0)
        is_over.set()
        command.returncode = os.waitstatus_to_exitcode(status)
        file.seek(0)
        return Ended(command.returncode, file.read(), used.ru_utime + used.ru_stime)


class Results:
    """What came of the parts. Each is said as soon as it is known."""

    def __init__(self) -> None:
        self.passed = self.failed = 0
        self.skipped: "Counter[str]" = Counter()
        self.changing = threading.Lock()
        self.is_over = False  # nothing begins from now on

    def skip(self, why: str, count: int = 1) -> None:
        with self.changing:
            self.skipped[why] += count

    def run(self, name: str, argv: List[str], folder: str = TOP) -> bool:
        """Runs the command of a part, and counts by the last line with counts. Returns whether
        nothing failed. A part with another status than 0 counts as one that failed, if it says
        nothing else."""
        if self.is_over:
            return False
        print(f"{name}: begins", flush=True)
        began = time.monotonic()
        ran = ended(argv, folder, name=name)
        counts = COUNTS.findall(ran.printed)
        passed, failed = map(int, counts[-1]) if counts else (0, 0)
        failed = failed or int(ran.status != 0)
        left_out = LEFT_OUT.findall(ran.printed)
        with self.changing:
            self.passed += passed
            self.failed += failed
            self.skipped.update(it.rpartition(": ")[2] for it in left_out)
        if failed:
            lines = [it for it in ran.printed.splitlines() if not NO_FAILURE.match(it)]
            print("\n".join(lines)[-TAIL:], flush=True)
        else:
            print("".join(f"{name}: {it}\n" for it in PASSED_ALONE.findall(ran.printed)), end="", flush=True)
        said = f"{passed} passed, {failed} failed, {len(left_out)} skipped"
        times = f"{time.monotonic() - began:.0f} s, {ran.seconds:.0f} s of processors"
        print(f"{name}: {times}, {said if counts or failed else 'done'}", flush=True)
        return not failed

    def is_empty(self) -> bool:
        return self.passed == self.failed == 0 and not self.skipped

    def finish(self) -> int:
        """Prints the skipped ones, and the counts. Returns the status to end with."""
        for why, count in sorted(self.skipped.items()):
            print(f"skipped: {count}: {why}")
        print(f"{self.passed} passed, {self.failed} failed, {sum(self.skipped.values())} skipped")
        return 0 if self.passed > 0 and self.failed == 0 else 1


def jobs_with_rt() -> int:
    """Returns how many of the toolchain's jobs run at a time: each takes up to 2 GB of memory."""
    with open("/proc/meminfo", encoding="ascii") as file:
        available = re.search(r"MemAvailable: *(\d+) kB", file.read())
    return max(1, min(processors(), int(available[1]) >> 21 if available else 1))


class Quick:
    """The parts, and the programs that they run. The folder `room` holds their builds."""

    def __init__(
        self, results: Results, room: str, is_checked: bool, words: Sequence[str]
    ) -> None:
        self.results, self.room, self.is_checked, self.words = results, room, is_checked, words
        is_up_to_date = ended(["make", "-q", "asancol"]).status == 0
        self.is_proved = os.path.isfile(PROVED) and is_up_to_date
        self.compiler = os.environ.get("CC", "cc")
        # The program runs as nobody, where root runs the tests.
        for folder in (room, f"{room}/unproved", f"{room}/fake"):
            os.makedirs(folder, exist_ok=True)
            os.chmod(folder, 0o755)

    def wants(self, *names: str) -> bool:
        """Returns whether a part of one of these names is chosen."""
        return not self.words or any(word in name for word in self.words for name in names)

    # ---- what needs the toolchain

    def crates(self) -> Iterator[str]:
        """Goes over the crates whose tests are run, first those that stand on most others."""
        names = [it for it in gate.crates_listed() if gate.has_tests(it)]
        names = [it for it in names if self.wants(f"crate {it}")]
        if shutil.which("rt") and not self.is_checked:
            yield from reversed(names)
        elif names and not self.is_checked:
            self.results.skip("rt is not there: the tests of the crates", len(names))

    def crate(self, name: str) -> None:
        argv = ["rt", "try", "--test", "--seconds", PATIENCE]
        self.results.run(f"crate {name}", argv, f"{TOP}/crates/{name}")

    def built_program(self) -> Optional[str]:
        """Returns the path of the program, or None if it is not there or nobody wants it."""
        if self.is_proved or not self.wants("program", "packages"):
            return PROVED if self.is_proved else None
        if not shutil.which("rt"):
            self.results.skip("rt is not there, nor ./asancol: the tests of the program")
            return None
        path = f"{self.room}/unproved/asancol"
        is_built = self.results.run("program: build", ["tools/unproved.py", "--build", path])
        return path if is_built else None

    def program(self, path: Optional[str]) -> None:
        """Runs the tests of the program."""
        if path and self.wants("program") and not self.is_checked:
            self.results.run("program: runs", ["tests/runs.py", path])
            self.results.run("program: fuzz", ["tests/fuzz.py", *DRAWS, path])

    # ---- what needs a C compiler

    def built_fake(self) -> Optional[str]:
        """Returns the path of the fake of asancol, or None if it can't be built."""
        path = f"{self.room}/fake/asancol"
        options = ["-std=c11", "-O2", "-iquote", ".", "testing/fake_asancol.c", "-o", path]
        is_built = self.results.run("fake: build", [*self.compiler.split(), *options])
        return path if is_built else None

    def fake(self, path: str) -> None:
        """Compares the fake with the documents."""
        if self.wants("fake: fuzz"):
            self.results.run("fake: fuzz", ["tests/fuzz.py", *DRAWS, path])
        if self.wants("fake: runs"):
            self.results.run("fake: runs", ["tests/runs.py", path, "golden_rows"])

    def suite(self, name: str, target: str, path: str, checker: str) -> None:
        """Runs the tests of a suite that are quick, and counts those that are left to a target."""
        if not self.wants(name):
            return
        rest = ended([path, "--list", "--rest", checker]).printed.splitlines()
        count = sum(1 for it in rest if not it.startswith("left out: "))
        if count:
            self.results.skip(f"left to `make {target} REST=1`", count)
        self.results.run(name, [path, "--quick", checker])

    def packages(self, path: Optional[str]) -> None:
        if path and self.wants("packages"):
            self.results.run("packages", ["tests/packages.py", path])

    def c_parts(self, pool: ThreadPoolExecutor, program: "Future[Optional[str]]") -> None:
        """Runs the parts that need a C compiler: packages and the fake beside the suites."""
        if not shutil.which(self.compiler.split()[0]):
            self.results.skip(f"{self.compiler} is not there: the tests of what is in C")
            return
        fake = self.built_fake()
        beside = pool.submit(self.fake, fake) if fake else None
        argv = ["make", f"-j{processors()}", "recorder", "run", f"CC={self.compiler}"]
        needs_build = self.wants("recorder", "asancol-run", "packages")
        if needs_build and self.results.run("C programs: build", argv):
            packages = pool.submit(lambda: self.packages(program.result() or fake))
            checker = PROVED if self.is_proved else fake
            if checker:
                self.suite("recorder", "check-recorder", "recorder/tests/check.py", checker)
                self.suite("asancol-run", "check-run", "run/tests/check.py", checker)
            packages.result()
        if beside:
            beside.result()

    def run(self) -> None:
        proved = "by ./asancol, which is proved" if self.is_proved else "nothing here is proved"
        print(f"{proved}; `make check` proves", flush=True)
        with ThreadPoolExecutor(2) as c, ThreadPoolExecutor(jobs_with_rt()) as rust:
            built = rust.submit(self.built_program)
            parts: "List[Future[Any]]" = [rust.submit(self.crate, it) for it in self.crates()]
            parts.append(rust.submit(lambda: self.program(built.result())))
            if self.wants("fake: fuzz", "fake: runs", "recorder", "asancol-run", "packages"):
                parts.append(c.submit(self.c_parts, c, built))
            try:
                for part in parts:
                    part.result()
            except BaseException:
                self.results.is_over = True
                raise


def main(argv: List[str]) -> int:
    about, _, more = (__doc__ or "").partition("usage: tools/quick.py [--checked] [WORD..]\n")
    reader = argparse.ArgumentParser(
        description=f"{about.strip()}\n{more}",
        formatter_class=argparse.RawDescriptionHelpFormatter,
        allow_abbrev=False,
    )
    reader.add_argument(
        "--checked", action="store_true", help="leave out what make check has run"
    )
    reader.add_argument("words", nargs="*", metavar="WORD", help="the parts that are run")
    request = reader.parse_args(argv)
    began, results = time.monotonic(), Results()
    with tempfile.TemporaryDirectory(prefix="asancol-quick-") as room:
        quick = Quick(results, room, request.checked, request.words)
        if request.checked and not quick.is_proved:
            print("./asancol is not there, or not up to date: run make check first")
            print("0 passed, 1 failed, 0 skipped")
            return 1
        quick.run()
    if results.is_empty():
        print(f"no part has a name with {' or '.join(request.words)}: --help has the names")
    used = resource.getrusage(resource.RUSAGE_CHILDREN)
    print(f"{time.monotonic() - began:.0f} s, {used.ru_utime + used.ru_stime:.0f} s of processors")
    return results.finish()


if __name__ == "__main__":
    sys.exit(main(sys.argv[1:]))
