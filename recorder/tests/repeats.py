"""Checks that compilers leave out since they look like ones that were made: by each version of a compiler that is
there, each line of repeats.c with BUG has its report."""

import json
import os
import re
import shutil
from typing import List, Sequence, Set

from fuzzing import has_libfuzzer
from support import (
    CC, TESTS, TOP, Compiler, Suite, expect, has_plugin_for, leave_out, noted, run, versions_of, write,
)

RUN = f"{TOP}/run/asancol-run"
SOURCE = f"{TESTS}/repeats.c"
LEVELS = ("-O0", "-O1", "-O2", "-O3")
# Clang's debug information may take a repeated check back, which is why it is built without, too.
DEBUG = ("-g", "-gline-tables-only")


def lines_with(word: str) -> Set[int]:
    with open(SOURCE, encoding="ascii") as file:
        return {number for number, line in enumerate(file, 1) if f"/* {word} */" in line}


def lines_found(suite: Suite, folder: str, *argv: str) -> Set[int]:
    options = ["--leaks=no", "--json", f"{folder}/found"]
    done = run([RUN, *options, "--", *argv], folder, ASANCOL=suite.asancol, ASANCOL_HALT="0")
    expect((done.returncode, done.stdout), (99, b"done\n"), done.stderr.decode())
    with open(f"{folder}/found", encoding="utf-8") as file:
        found = [it for it in map(json.loads, file) if it["type"] == "finding"]
    os.unlink(f"{folder}/found")
    return {frame["line"] for it in found for frame in it["stack"][:1]}


def check_repeats(suite: Suite, folder: str, compiler: Compiler, flags: Sequence[str]) -> None:
    """GCC repeats no check of a bad access with nothing between."""
    is_clang = "clang" in compiler.name
    for debug in DEBUG if is_clang else ("-g",):
        compiler.c(folder, [SOURCE], f"{folder}/repeats", "-w", "-pthread", debug, *flags)
        found = lines_found(suite, folder, f"{folder}/repeats")
        wanted = lines_with("BUG") | (lines_with("REPEAT") if is_clang else set())
        expect(sorted(wanted - found), [], f"{flags} {debug}: lines without a report")
        expect(sorted(found - wanted - lines_with("REPEAT")), [], f"{flags} {debug}: other lines")


TARGET = """
int program(void);
int LLVMFuzzerTestOneInput(const unsigned char *data, unsigned long size) { return data == 0 && size > 0; }
int LLVMFuzzerInitialize(int *count, char ***words) { (void)count, (void)words; return program(); }
"""


def check_fuzzed(suite: Suite, folder: str, compiler: Compiler) -> None:
    """A fuzzer's counts of branches bring no check back, and take none away."""
    write(folder, target_c=TARGET)
    for level in ("-O1", "-O2"):
        flags = ["-w", "-pthread", "-fsanitize=fuzzer", "-Dmain=program", level]
        compiler.c(folder, [SOURCE, "target.c"], f"{folder}/fuzzed", *flags)
        found = lines_found(suite, folder, f"{folder}/fuzzed", "-runs=0")
        expect(sorted(found), sorted(lines_with("BUG") | lines_with("REPEAT")), level)


def check_asked_for(_suite: Suite, folder: str, compiler: Compiler) -> None:
    """Who asks Clang for it is told, and so is the run, unless the compiler takes each such word once."""
    write(folder, empty_c="int main(void) { return 0; }\n")
    for word, says in (("=1", True), ("", True), ("=true", True), ("=0", False)):
        argv = [CC, "-mllvm", f"-asan-opt-same-temp{word}", "empty.c", "-o", "empty"]
        made = run(argv, folder, ASANCOL_CC=compiler.name)
        said = made.stderr.decode()
        named = f"asancol-cc: warning: -mllvm -asan-opt-same-temp{word}: code compiled with this option lacks checks"
        expect(named in said, says, said)
        if made.returncode != 0:
            expect("may only occur zero or one times" in said, True, said)
            continue
        expect(noted(f"{folder}/empty"), ["empty.c"] if says else [], word)


def links_with(compiler: Compiler) -> List[List[str]]:
    """The ways in which it can link what -flto makes."""
    if "clang" not in compiler.name:
        return [["-O2", "-flto"]]
    number = re.search(r"version (\d+)", run([compiler.name, "--version"], ".").stdout.decode())
    version = number[1] if number else ""
    folder, lld = f"/usr/lib/llvm-{version}", f"-fuse-ld=lld-{version}"  # up to 16 it takes any lld for its own
    ways = []
    if shutil.which(f"ld.lld-{version}"):
        ways += [["-O2", "-flto", lld], ["-O2", "-flto=thin", lld]]
    if os.path.exists(f"{folder}/lib/LLVMgold.so") and shutil.which("ld.gold"):
        ways += [["-O2", "-flto", "-fuse-ld=gold"]]
    return ways


def tests(suite: Suite, compiler: Compiler) -> None:
    for it in [compiler, *versions_of(compiler.name)]:
        if "gcc" in it.name and not has_plugin_for(CC, it):
            leave_out(f"the plugin for {it} is not there")
            continue
        for flags in [*([level] for level in LEVELS), *links_with(it)]:
            suite.test(f"{it} repeated checks {' '.join(flags)}", check_repeats, it, flags)
        if "clang" in it.name:
            suite.test(f"{it} repeated checks left out", check_asked_for, it)
        if "clang" in it.name and has_libfuzzer(it, suite.folder):
            suite.test(f"{it} repeated checks fuzzed", check_fuzzed, it)
        elif "clang" in it.name:
            leave_out(f"libFuzzer of {it} is not there")
