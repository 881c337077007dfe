#!/usr/bin/env python3
"""Measures what real programs cost beside AddressSanitizer: to build, and their test suites under asancol-run.

usage: recorder/tests/bench_suites.py [--rounds N] [--compiler NAME] ASANCOL [NAME..]

The programs are those of real.py, without the crates of Rust, and four more that allocate or compute much. Their
sources come as there. Each is built with -O2 -g for AddressSanitizer and by asancol-cc. Its tests are run once if `make
check` compiles them, and then N times (3) by turns: with AddressSanitizer, under asancol-run, and under asancol-run
--full. Nobody looks for leaks, and AddressSanitizer goes on after an error.

A row has the least processor seconds of AddressSanitizer, and as parts of them what the processes of the suite took
under asancol-run and --full, and what asancol-run and its checkers took with them. Then comes the greatest memory of a
process, in MB; and the processor seconds of AddressSanitizer's build, with `./configure` if there is one, and what part
of them that by asancol-cc took, of each the least of two. With three rounds all of it takes some two hours on a machine
with nothing else to do, most of them for re2.
"""

import argparse
import os
import re
import resource
import shutil
import subprocess
import sys
from typing import Dict, List, NamedTuple, Optional, Sequence, Tuple

sys.path.insert(0, f"{os.path.dirname(os.path.realpath(__file__))}/../..")  # where `testing` is

import real
from support import Compiler, Failure, compilers, environment, expect
from testing import measuring

SANITIZED = "-O2 -g -fsanitize=address -fsanitize-recover=address"
BUILDS = 2  # of each kind, by turns
WAYS: Dict[str, Tuple[str, ...]] = {"sanitizer": (), "lean": (real.RUN,), "full": (real.RUN, "--full")}

# Debian's sources of re2 come without its tables, which are made of the package unicode-data.
RE2_FIRST = "make REBUILD_TABLES=1 re2/perl_groups.cc re2/unicode_casefold.cc re2/unicode_groups.cc"
UNICODE = "/usr/share/unicode/UnicodeData.txt"
# Without those that try all small expressions, or many: with AddressSanitizer they take a quarter of an hour.
RE2_TEST = "cd built && ctest --verbose -E '^(exhaustive|random)'"
# Without one that counts entries while another thread may merge them: with AddressSanitizer too it fails at times.
LEVELDB_TEST = "cd built && GTEST_FILTER=-DBTest.HiddenValuesAreRemoved ctest --verbose"

# Redis has tests of its own data structures in the server.
REDIS_BUILD = """make -j 4 MALLOC=libc CC="$CC" OPTIMIZATION=-O2 REDIS_CFLAGS="-DREDIS_TEST $FLAGS" \\
    REDIS_LDFLAGS="$FLAGS" redis-server"""
ZSTD_TEST = "cd tests && ./fuzzer -s5 -i200 && ./zstreamtest -s5 -i100"
MORE = [
    real.by_cmake("re2", "-DRE2_BUILD_TESTING=ON", first=RE2_FIRST)._replace(
        test=RE2_TEST, tools=("cmake", "ctest", UNICODE), is_cpp=True
    ),
    real.by_cmake("leveldb", "-DLEVELDB_BUILD_BENCHMARKS=OFF")._replace(test=LEVELDB_TEST, is_cpp=True),
    real.Program("libzstd", 'make -C tests CC="$CC" CFLAGS="$FLAGS" fuzzer zstreamtest', ZSTD_TEST, r"^.*\bOK\b"),
    real.Program("redis", f"cd src && {REDIS_BUILD}", "src/redis-server test all", r"^\d+ tests, \d+ passed"),
]


class Cost(NamedTuple):
    own_seconds: float  # of the processes of the suite
    seconds: float  # of all
    megabytes: float
    passed: int


def least(costs: Sequence[Cost]) -> Cost:
    return Cost(*(min(values) for values in zip(*costs)))


def seconds_in(path: str) -> float:
    """What `times` of the shell has printed: in the second line stands what its children took."""
    with open(path, encoding="ascii") as file:
        return sum(int(minutes) * 60 + float(rest) for minutes, rest in re.findall(r"(\d+)m([\d.]+)s", list(file)[1]))


def seconds_of_children() -> float:
    used = resource.getrusage(resource.RUSAGE_CHILDREN)
    return used.ru_utime + used.ru_stime


class Built:
    """A program in two builds, of which each is run in the folder where it was built."""

    def __init__(self, program: real.Program, compiler: Compiler, asancol: str) -> None:
        self.program, self.base = program, f"{real.OUT}/{program.name}.{compiler}.cost"
        self.settings = {"sanitizer": real.flags_for(compiler, SANITIZED, False)}
        self.settings["sanitizer"]["ASAN_OPTIONS"] = "detect_leaks=0:halt_on_error=0:exitcode=0:log_path=/dev/null"
        for way in ("lean", "full"):
            self.settings[way] = {**real.flags_for(compiler, "-O2 -g", True), "ASANCOL": asancol}
        self.build_seconds: Dict[str, float] = {}
        for way in ("sanitizer", "lean") * BUILDS:
            before = seconds_of_children()
            real.build_in(program, real.empty(self.folder(way)), {**self.settings[way], "MAKEFLAGS": "-j4"})
            took = seconds_of_children() - before
            self.build_seconds[way] = min(took, self.build_seconds.get(way, took))
        if "make check" in program.test:
            for way in self.build_seconds:
                self.measure(way)

    def folder(self, way: str) -> str:
        return f"{self.base}.{'sanitizer' if way == 'sanitizer' else 'recorded'}"

    def measure(self, way: str) -> Cost:
        """Runs the tests once."""
        folder = self.folder(way)
        script = f"({self.program.test}\n)\nstatus=$?; times > {folder}/times; exit $status"
        options = ("--exitcode", "0", "--leaks=no", "--log-file", f"{folder}/run.log", "--")
        argv = [*WAYS[way], *(options if WAYS[way] else ()), "sh", "-c", script]
        with open(f"{folder}/test.log", "wb") as log:
            used = measuring.measure(argv, cwd=f"{folder}/src", env=environment(**self.settings[way]),
                                     stdin=subprocess.DEVNULL, stdout=log, stderr=subprocess.STDOUT)
        expect(used.status, 0, f"the tests, {folder}/test.log")
        with open(f"{folder}/test.log", encoding="utf-8", errors="replace") as text:
            passed = len(re.findall(self.program.passed, text.read(), re.M))
        return Cost(seconds_in(f"{folder}/times"), used.processor, used.memory / (1 << 20), passed)


def row(built: Built, rounds: int) -> str:
    costs: Dict[str, List[Cost]] = {way: [] for way in WAYS}
    for _ in range(rounds):
        for way in WAYS:
            costs[way].append(built.measure(way))
    best = {way: least(of_way) for way, of_way in costs.items()}
    expect(best["lean"].passed, best["sanitizer"].passed, "tests that passed")
    base = best["sanitizer"].seconds
    recorded = [best[way] for way in ("lean", "full")]
    parts = [f"{value / base:8.2f}" for it in recorded for value in (it.own_seconds, it.seconds)]
    memory = "".join(f"{best[way].megabytes:8.0f}" for way in WAYS)
    build = built.build_seconds["sanitizer"]
    return f"{base:10.2f}{''.join(parts)}{memory}{build:9.2f}{built.build_seconds['lean'] / build:7.2f}"


def main(argv: Optional[List[str]] = None) -> int:
    reader = argparse.ArgumentParser(description="measures the test suites of real programs")
    reader.add_argument("--rounds", type=int, default=3)
    reader.add_argument("--compiler", default="gcc")
    reader.add_argument("asancol", metavar="ASANCOL")
    reader.add_argument("names", nargs="*")
    options = reader.parse_args(argv)
    found = {it.name: it for it in compilers()}
    if options.compiler not in found:
        reader.error(f"no compiler {options.compiler}: there are {', '.join(found) or 'none'}")
    if options.rounds < 1:
        reader.error("at least one round")
    compiler = found[options.compiler]
    among = [*MORE, *real.PROGRAMS, *real.OF_PROCESSES]
    programs = [it for it in real.chosen(options.names, among) if not it.crate]
    real.fetch(programs)
    print(f"{'program':<12}{'sanitizer':>10}{'lean':>8}{'in all':>8}{'full':>8}{'in all':>8}"
          f"{'MB san.':>8}{'lean':>8}{'full':>8}{'build':>9}{'ours':>7}", flush=True)
    failed = 0
    for program in programs:
        try:
            built = Built(program, compiler, os.path.abspath(options.asancol))
            print(f"{program.name:<12}{row(built, options.rounds)}", flush=True)
            for way in ("sanitizer", "lean"):
                shutil.rmtree(built.folder(way))
        except (Failure, OSError) as error:
            failed += 1
            print(f"FAILED {program.name}: {error}", flush=True)
    return 1 if failed else 0


if __name__ == "__main__":
    sys.exit(main())
