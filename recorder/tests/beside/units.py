"""AddressSanitizer's unit tests, as GCC has them: a program whose argument names a test, or a death in it. Each death
runs alone."""

import functools
import glob
import os
import re
from typing import Iterator, List, Sequence

from beside.compare import Job, Verdict, compare_all
from beside.execute import IS_ARM, SOURCES, Execution, execute
from beside.programs import OUT, Kept, Program, folder_for_a_test, version_of
from support import Compiler, Failure
from testing.suite import Later

TREE = f"{SOURCES}gcc-12/gcc/testsuite/g++.dg/asan"
# Those of asan_test.C.
DEFINED = ["ASAN_UAR=0", "ASAN_HAS_EXCEPTIONS=1", "ASAN_HAS_BLACKLIST=0", "ASAN_NEEDS_SEGV=1",
           "ASAN_AVOID_EXPENSIVE_TESTS=1", "SANITIZER_USE_DEJAGNU_GTEST=1", "__NO_INLINE__"]
FLAGS = ["-O2", "-g", "-w", "-std=c++11", "-fno-builtin", *([] if IS_ARM else ["-msse2"]),
         *(f"-D{it}" for it in DEFINED), f"{TREE}/asan_test.C", f"{TREE}/asan_globals_test-wrapper.cc", "-lpthread",
         "-ldl"]


def build(program: Program, way: str, folder: str) -> None:
    os.makedirs(folder, exist_ok=True)
    if not program.build(way, folder):
        raise Failure("the unit tests do not build")


class Units:
    """The program of one compiler, which is built in each way once."""

    def __init__(self, compiler: Compiler) -> None:
        program, folder = Program(compiler, True, FLAGS), f"{OUT}/units.{compiler}"
        self.question = [version_of(compiler), *FLAGS]
        self.built = {it: Later(f"{folder}/{it}", build, program, it, folder) for it in ("real", "recorded")}

    def executions(self, way: str, name: str, deaths: int = -1) -> List[Execution]:
        """Runs a test, which says what deaths it has, and then each of these."""
        program = self.built[way].made()
        with folder_for_a_test() as folder:
            found = [execute(way, [program, name], folder, folder, ASAN_OPTIONS="handle_segv=2")]
            if deaths < 0:
                with open(f"{folder}/errors", encoding="utf-8") as file:
                    numbers = re.findall(r"^DEJAGNU_GTEST_EXPECT_DEATH(\d+) ", file.read(), re.M)
                deaths = max(map(int, numbers), default=0)
            for number in range(1, deaths + 1):
                argv = [program, f"{name}:{number}"]
                found.append(execute(way, argv, folder, folder, ASAN_OPTIONS="handle_segv=2"))
        return found

    def check(self, kept: Kept, name: str) -> List[Verdict]:
        real = kept.ask([*self.question, name], lambda: self.executions("real", name))
        verdicts = compare_all(real, lambda: self.executions("recorded", name, len(real) - 1))
        return [it._replace(where=f"death {number}" if number else "") for number, it in enumerate(verdicts)]


def names() -> Iterator[str]:
    """Those that are in the program: GCC's header leaves out the disabled ones."""
    for path in sorted(glob.glob(f"{TREE}/*_test.cc")):
        with open(path, encoding="utf-8") as file:
            for group, name in re.findall(r"^TEST\((\w+), (\w+)\)", file.read(), re.M):
                if not name.startswith("DISABLED_"):
                    yield f"{group}_{name}"


def jobs(kept: Kept, compilers: Sequence[Compiler]) -> Iterator[Job]:
    for compiler in compilers:
        if compiler.cxx:
            units = Units(compiler)
            for name in names():
                yield Job("units", f"{name} by {compiler}", functools.partial(units.check, kept, name))
