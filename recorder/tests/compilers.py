#!/usr/bin/env python3
"""Builds programs with bugs by every version of GCC and Clang that is there, with every linker, at every level, with
-flto, and with both libraries of C++; and runs a part of the recorder's tests by each version.

usage: recorder/tests/compilers.py [--list] [--junit FILE] ASANCOL [WORD..]

A version has each linker once, each with another level and library. Each bug has its report at its line, and where the
version has AddressSanitizer, that finds it there too. Of the quick tests of check.py each version runs one in twenty,
other ones than the version before it. A missing version, linker or library is named in a line, and left out. A word
chooses the tests whose names have it. It ends with a table of what has passed, and the last line is 'N passed, M
failed'. It takes some ten minutes on four processors.
"""

import os
import re
import shutil
import subprocess
import sys
import tempfile
from typing import List, Optional, Sequence

sys.path.insert(0, f"{os.path.dirname(os.path.realpath(__file__))}/../..")  # where `testing` is

import testing
from builds import LINKERS
from calls import check_common_bugs
from findings import check_mismatches
from repeats import links_with
from strings import LIBRARIES, check_faults, has
from support import CC, TESTS, Compiler, Failure, has_plugin_for, has_sanitizer, leave_out, versions_of
from testing import suite
from testing.programs import call, environment, path_without

LEVELS = ("-O0", "-O1", "-O2", "-O3")
SAMPLE = "tests"
COLUMNS = (*("bfd", "gold", "lld", "mold"), *LEVELS, "-flto", *LIBRARIES, SAMPLE)
FIRST_GCC_WITH_MOLD = 12
PART = 20  # in how many parts the quick tests come
# Quick tests, by words of their names, that can't pass with a version: AddressSanitizer of GCC 11 has no
# __sanitizer_get_report_path, the LeakSanitizer of Clang 13 ends at a check of its own with glibc 2.36, and Clang does
# not give the declarations of variables from 15 on.
OF_VARIABLES = "hub variables"
UNFIT = {"gcc-11": "told of reports", "clang-13": " leaks ", "clang-15": OF_VARIABLES, "clang-16": OF_VARIABLES,
         "clang-19": OF_VARIABLES, "clang-22": OF_VARIABLES}
# A call that ends a function would have its caller's place.
KEPT = "-fno-optimize-sibling-calls"


def number_of(compiler: Compiler) -> int:
    return int(compiler.name.rpartition("-")[2])


def is_gcc(compiler: Compiler) -> bool:
    return compiler.name.startswith("gcc")


def knows_mold(compiler: Compiler) -> bool:
    return not is_gcc(compiler) or number_of(compiler) >= FIRST_GCC_WITH_MOLD


def llvm_of(clang: Compiler) -> str:
    """Where the tools of its LLVM are: its runtime, and what reads its bitcode, has to be of its version."""
    return f"/usr/lib/llvm-{number_of(clang)}/bin"


def lacks_of(compiler: Compiler) -> str:
    """What its part of the quick tests needs, and is not there."""
    if is_gcc(compiler):
        return "" if has_plugin_for(CC, compiler) else f"the plugin for {compiler}"
    return "" if os.path.exists(f"{llvm_of(compiler)}/llvm-ar") else f"llvm-{number_of(compiler)}"


def quick_tests(asancol: str, front: str) -> List[str]:
    """The names of check.py's quick tests of GCC, for a compiler by this name, as far as it has them."""
    def listed(*words: str) -> List[str]:
        return subprocess.run([f"{TESTS}/check.py", "--list", *words, asancol], stdout=subprocess.PIPE, text=True,
                              check=True).stdout.splitlines()
    quick = [it[len("gcc") :] for it in listed("--quick") if it.startswith("gcc ")]
    there = set(listed())
    return [f"{front}{it}" for it in quick if f"{front}{it}" in there]


class Suite(testing.Suite):
    """The tests of each version. A part of check.py's uses all processors: these come last, one after another."""

    def __init__(self, asancol: str, words: Sequence[str]) -> None:
        super().__init__(words)
        self.asancol = asancol
        self.folder = tempfile.mkdtemp(prefix="asancol-compilers-")
        self.is_sampling: Optional[bool] = None
        for name in {"bfd", "gold", "lld", "mold"} - set(LINKERS):
            leave_out(f"ld.{name} is not there")
        self.versions: List[Compiler] = [it for name in ("gcc", "clang") for it in versions_of(name, with_own=True)]
        for number, compiler in enumerate(self.versions):
            compiler.has_sanitizer = has_sanitizer(compiler, self.folder)
            if not compiler.has_sanitizer:
                leave_out(f"the AddressSanitizer of {compiler} is not there")
            self.add(number, compiler)

    def linked_by(self, compiler: Compiler, linker: str) -> str:
        """The option for a linker: GCC knows mold by its name from 12 on."""
        if linker != "mold" or knows_mold(compiler):
            return f"-fuse-ld={linker}"
        os.makedirs(f"{self.folder}/mold", exist_ok=True)
        if not os.path.lexists(f"{self.folder}/mold/ld"):
            os.symlink(str(shutil.which("ld.mold")), f"{self.folder}/mold/ld")
        return f"-B{self.folder}/mold"

    def add(self, number: int, compiler: Compiler) -> None:
        """Adds the tests of a version, the names of which have the words of the table's columns."""
        libraries = [it for it in LIBRARIES if compiler.cxx and has(compiler, it)]
        for it in set(LIBRARIES) - set(libraries):
            if it == "libstdc++" or not is_gcc(compiler):
                leave_out(f"{it} is not there for {compiler}")
        unfolded = ["-fno-ipa-icf"] if is_gcc(compiler) else []  # GCC 11 gives what it folds the line of another
        for place, linker in enumerate(LINKERS):
            level, option = LEVELS[(number + place) % len(LEVELS)], self.linked_by(compiler, linker)
            self.test(f"{compiler} {linker} {level} calls", check_common_bugs, compiler, [level, option, *unfolded])
            if libraries:
                library = libraries[(number // 2 + place) % len(libraries)]
                words = [] if library == "libstdc++" else [f"-stdlib={library}"]
                self.test(f"{compiler} {linker} {level} {library} mismatches", check_mismatches, compiler,
                          level, option, KEPT, *words)
                self.test(f"{compiler} {linker} {library} strings", check_faults, compiler, library, False, option)
        for flags in links_with(compiler):
            self.test(f"{compiler} {' '.join(flags)} calls", check_common_bugs, compiler, [*flags, *unfolded])
            if libraries:
                self.test(f"{compiler} {' '.join(flags)} mismatches", check_mismatches, compiler, KEPT, *flags)
        if lacks_of(compiler):
            leave_out(f"{lacks_of(compiler)} is not there, and without it the tests of {compiler}")
        elif compiler.cxx:
            self.test(f"{compiler} {SAMPLE}", check_sample, compiler, number)

    def chosen(self) -> List[suite.Test]:
        return [it for it in super().chosen() if self.is_sampling in (None, it.run is check_sample)]

    def processors(self) -> int:
        return 1 if self.is_sampling else super().processors()

    def run_all(self) -> None:
        for self.is_sampling in (False, True):
            if self.chosen():
                super().run_all()

    def clean_up(self) -> None:
        shutil.rmtree(self.folder, ignore_errors=True)

    def cell(self, compiler: Compiler, column: str) -> str:
        """What stands in the table: of all tests of a version whose names have the word."""
        words = {compiler.name, column}
        failed = [bool(it.wrong) for it in self.results if not it.left_out and words <= set(re.split("[ =]", it.name))]
        return "-" if not failed else "FAILED" if any(failed) else "passed"

    def finish(self) -> int:
        print(f"{'':<10}{''.join(f'{it:<10}' for it in COLUMNS)}")
        for compiler in self.versions:
            print(f"{compiler.name:<10}{''.join(f'{self.cell(compiler, it):<10}' for it in COLUMNS)}")
        return super().finish()


def check_sample(suite: Suite, folder: str, compiler: Compiler, number: int) -> None:
    """A part of the quick tests, in which this version has the name of its family."""
    family = compiler.name.partition("-")[0]
    links = f"{folder}/links"
    os.mkdir(links)
    for name, path in ((family, compiler.name), (re.sub("[0-9-]+$", "", compiler.cxx), compiler.cxx)):
        os.symlink(str(shutil.which(path)), f"{links}/{name}")
    path = os.environ["PATH"] if knows_mold(compiler) else path_without("ld.mold", folder)
    settings = environment(PATH=f"{links}:{path}")
    if not is_gcc(compiler):
        settings["PATH"] = f"{links}:{llvm_of(compiler)}:{path}"
        settings["ASAN_SYMBOLIZER_PATH"] = f"{llvm_of(compiler)}/llvm-symbolizer"
    fit = [it for it in quick_tests(suite.asancol, family) if UNFIT.get(compiler.name, "\n") not in it]
    names = fit[number % PART :: PART]
    ran = call([f"{TESTS}/check.py", suite.asancol, *names], cwd=folder, env=settings, stdin=subprocess.DEVNULL,
               stdout=subprocess.PIPE, stderr=subprocess.STDOUT, text=True, timeout=None)
    if ran.returncode != 0:
        raise Failure("\n".join(it for it in ran.stdout.splitlines() if not it.startswith("left out: ")))


if __name__ == "__main__":
    sys.exit(suite.main(Suite, __doc__))
