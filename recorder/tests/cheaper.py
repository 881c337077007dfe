"""Clang's checks that a plugin makes cheaper: when it is built and given, what it makes, and the same reports without
it by each version (passes.py has the comparison)."""

import os
import re
import shutil
from typing import List, Sequence, Tuple

from drawn import expect_same, recorded
from inline import SAME
from passes import BY_GCC, SOURCES, check_same, make, without_passes
from support import CC, RECORDER, TESTS, TOP, Compiler, Suite, build, expect, leave_out, run, versions_of, write

OWN = "asancol_report_"
LEVELS = ("-O1", "-O2", "-O3", "-Os")
BY_BOTH = [it for it in SOURCES if it not in BY_GCC]


def asked(compiler: Compiler, *words: str) -> bytes:
    return run([CC, "-###", "-c", *words, f"{TESTS}/passes/accesses.c"], ".", ASANCOL_CC=compiler.name).stderr


def is_given(compiler: Compiler, *words: str) -> bool:
    return b"libasancol_clang.so" in asked(compiler, *words)


def check_all(suite: Suite, folder: str, compiler: Compiler, sources: Sequence[str], flags: Sequence[str]) -> None:
    without_passes(f"{folder}/plain-wrappers")
    for source in sources:
        check_same(suite, folder, compiler, f"{folder}/plain-wrappers", source, flags)


def check_drawn(suite: Suite, folder: str, compiler: Compiler, level: str) -> None:
    """Drawn operations, in one thread and in several."""
    without_passes(f"{folder}/plain-wrappers")
    for program, by in (("with", RECORDER), ("without", f"{folder}/plain-wrappers")):
        make(compiler, by, "inline/drawn.c", f"{folder}/{program}", level)
    for seed, threads in ((1, 1), (2, 1), (3, 4)):
        found, wanted = (recorded(suite, folder, it, seed, threads) for it in ("with", "without"))
        expect(len(wanted) > 100, True, f"{len(wanted)} are bad")
        expect_same(found, wanted, f"seed {seed}, {threads} threads")


ANY = """
struct item { int a, b; long c; };
long sum(struct item *p) { return p->a + p->b + p->c; }
__attribute__((optnone)) long slow(struct item *p) { return p->a; }
"""


def calls_in(path: str) -> List[str]:
    """The calls for bad accesses, without those of ranges."""
    with open(path, encoding="utf-8") as file:
        return re.findall(r"call.*?(asancol_report_|__asan_report_exp_)(?:load|store)\d", file.read())


def check_made(_suite: Suite, folder: str, compiler: Compiler) -> None:
    """Its passes run at each level, and before a link that optimises; and code is smaller by them."""
    write(folder, any_c=ANY)
    where = f"{folder}/plain-wrappers"
    without_passes(where)
    ways: List[List[str]] = [["-O1"], ["-O2"], ["-O3"], ["-Os"], ["-O2", "-flto"], ["-O2", "-flto=thin"]]
    early = ["-O2", "-mllvm", "-sanitizer-early-opt-ep"]
    if run([compiler.name, *early, "-S", "any.c"], folder).returncode == 0:
        ways.append(early)
    for flags in ways:
        for by, calls in ((RECORDER, {OWN, "__asan_report_exp_"}), (where, {"__asan_report_exp_"})):
            made = run([f"{by}/asancol-cc", *flags, "-S", "any.c"], folder, ASANCOL_CC=compiler.name)
            expect((made.returncode, made.stderr), (0, b""), f"{flags}")
            expect(set(calls_in(f"{folder}/any.s")), calls, f"{flags}: reports")


def check_size(_suite: Suite, folder: str, compiler: Compiler) -> None:
    """Objects are smaller by a sixth at least."""
    where = f"{folder}/plain-wrappers"
    without_passes(where)
    sizes = []
    for name, by in (("with.o", RECORDER), ("without.o", where)):
        build([f"{by}/asancol-cc", "-O2", "-w", "-c", f"{TESTS}/passes/accesses.c", "-o", name], folder,
              ASANCOL_CC=compiler.name)
        rows = [line.split() for line in run(["size", "-A", name], folder).stdout.decode().splitlines()]
        sizes.append(sum(int(row[1]) for row in rows if row and row[0].startswith(".text")))
    expect(sizes[0] * 6 < sizes[1] * 5, True, f"{sizes}")


def check_options(_suite: Suite, folder: str, compiler: Compiler) -> None:
    """It is given where code is optimised, unless each access is a call. Without it Clang gets a header."""
    ways: List[List[str]] = [["-O2"], ["-O2", "-O0"], [], ["-O2", "--asancol-all"], ["-O2", "-E"], ["-O2", "-m32"]]
    expect([is_given(compiler, *it) for it in ways], [True, False, False, False, False, False], "by words")
    included = [b"cold_reports.h" in asked(compiler, *it) for it in ways]
    expect(included, [False, True, True, False, False, False], "the header")
    where = f"{folder}/plain-wrappers"
    without_passes(where)
    write(folder, any_c=ANY)
    made = run([f"{where}/asancol-cc", "-O2", "-v", "-c", "any.c"], folder, ASANCOL_CC=compiler.name)
    wanted = b"libasancol_clang.so: not found beside the wrapper: checks take more code and time\n"
    expect((made.returncode, wanted in made.stderr), (0, True), "without it, with -v")


def check_broken(_suite: Suite, folder: str, compiler: Compiler) -> None:
    """Passes that can't be loaded break no build."""
    where, plugin = f"{folder}/plain-wrappers", "libasancol_clang.so"
    without_passes(where)
    os.link(f"{RECORDER}/{plugin}", f"{where}/{plugin}")
    write(folder, any_c=ANY)

    def compiles(name: str, *words: str) -> Tuple[int, bytes]:
        made = run([f"{where}/asancol-cc", "-O2", *words, "-c", "any.c"], folder, ASANCOL_CC=name)
        return made.returncode, made.stderr

    for major in range(13, 23):
        write_as(where, f"libasancol_clang_{major}.so", "")
    expect(compiles(compiler.name), (0, b""), "without passes")
    says = "case $* in *--version*) echo clang version 39.0.1; exit;; esac"
    other = write_as(folder, "other", f'#!/bin/sh\n{says}\nexec {compiler} "$@"\n')
    os.chmod(other, 0o755)
    for has_file, wanted in ((False, b"clang_39.so: not found beside"), (True, b"clang_39.so: whether this Clang can")):
        if has_file:
            write_as(where, "libasancol_clang_39.so", "")
        expect(compiles(other), (0, b""), "another version")
        status, said = compiles(other, "-v")
        expect((status, wanted in said), (0, True), "another version, with -v")
    os.unlink(f"{where}/{plugin}")
    write_as(where, plugin, "")
    expect(compiles(compiler.name), (0, b""), "without a plugin")
    status, said = compiles(compiler.name, "-v")
    expect((status, f"{plugin}: it can't be loaded".encode() in said), (0, True), "without a plugin, with -v")


def write_as(folder: str, name: str, text: str) -> str:
    os.makedirs(os.path.dirname(f"{folder}/{name}"), exist_ok=True)
    with open(f"{folder}/{name}", "w", encoding="utf-8") as file:
        file.write(text)
    return f"{folder}/{name}"


def check_left_out(_suite: Suite, folder: str) -> None:
    """Passes that do not compile are named and left out, and tried again with other headers. make goes on."""
    for name in os.listdir(RECORDER):
        if os.path.isdir(f"{RECORDER}/{name}") and name != "out":
            os.symlink(f"{RECORDER}/{name}", f"{folder}/{name}")
    says = f"case $1 in --version) echo 77.1.0;; *) echo {folder}/headers;; esac"
    os.chmod(write_as(folder, "llvm-config", f"#!/bin/sh\n{says}\n"), 0o755)
    product, said = f"{folder}/libasancol_clang_77.so", f"{folder}/out/clang/77/checks.said"
    for text in ("#error one\n", "#error other\n"):
        for name in ("Config/llvm-config.h", "IR/PassManager.h", "Passes/PassBuilder.h"):
            write_as(folder, f"headers/llvm/{name}", text)
        write_as(folder, os.path.basename(product), "")
        os.utime(product, (1, 1))
        stamps = set()
        for _ in range(2):
            made = run(["make", "-s", "-f", f"{RECORDER}/Makefile", f"TOP={TOP}", f"LLVM_CONFIGS={folder}/llvm-config",
                        "libasancol_clang_77.so", "libasancol_clang.so"], folder)
            of = f"{text}{made.stderr.decode()}"
            there = [os.path.exists(it) for it in (product, f"{folder}/libasancol_clang.so")]
            expect((made.returncode, there), (0, [False, True]), of)
            expect(b"libasancol_clang_77.so is left out: checks.cpp does not compile" in made.stderr, True, of)
            stamps.add(os.stat(said).st_mtime_ns)
        with open(said, encoding="utf-8") as file:
            expect((text.strip() in file.read(), len(stamps)), (True, 1), f"{text}: compiled once")


def tests_of_all(suite: Suite) -> None:
    suite.test("plugin that does not compile", check_left_out)


def tests_of(suite: Suite, compiler: Compiler) -> None:
    """For each version of LLVM."""
    suite.test(f"{compiler} cheaper checks made", check_made, compiler)
    suite.test(f"{compiler} cheaper checks same -O2", check_all, compiler, BY_BOTH, ["-O2"])


def tests(suite: Suite, compiler: Compiler) -> None:
    if compiler.name != "clang":
        return
    for it in [compiler, *versions_of("clang")]:
        if is_given(it, "-O2"):
            tests_of(suite, it)
        else:
            leave_out(f"the plugin of {it} is not there")
    if not is_given(compiler, "-O2"):
        return
    suite.test(f"{compiler} cheaper checks options", check_options, compiler)
    suite.test(f"{compiler} cheaper checks broken", check_broken, compiler)
    suite.test(f"{compiler} cheaper checks size", check_size, compiler)
    levels = [["-O3", "-march=haswell"], ["-O2", "-fPIC"], ["-O2", "-fno-pie", "-no-pie"]]
    if shutil.which("ld.lld"):
        levels += [["-O2", "-fuse-ld=lld", "-flto"], ["-O2", "-fuse-ld=lld", "-flto=thin"]]
    else:
        leave_out("lld is not there, which links what -flto makes")
    for flags in levels:
        suite.test(f"{compiler} cheaper checks same {' '.join(flags)}", check_all, compiler, BY_BOTH, flags)
    for level in LEVELS:
        programs = [f"inline/{it}" for it in SAME]
        suite.test(f"{compiler} cheaper checks inline {level}", check_all, compiler, programs, [level])
        suite.test(f"{compiler} cheaper checks drawn {level}", check_drawn, compiler, level)
