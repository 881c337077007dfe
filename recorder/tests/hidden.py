"""Accesses that are no plain loads and stores to a compiler: by Clang, by GCC with its plugin, and without that, too,
what of them can be."""

import os
import re
import shutil
from typing import Dict, List, Sequence, Set, Tuple

from support import CC, TESTS, Compiler, Suite, Trace, expect, has_plugin, has_plugin_for, leave_out, noted, run, \
    side_of, versions_of, write

PLUGIN = "libasancol_gcc.so"
ROW = re.compile(r"^(BUG|GOOD)\((\w+)", re.M)

# RECORDER.md lists them as not recorded.
NOT_BY_CLANG = {"compress", "expand", "narrow", "gather_512", "scatter"}


def rows_of(name: str) -> Dict[str, Tuple[bool, str]]:
    """Whether each is a bug, and its line."""
    with open(f"{TESTS}/{name}", encoding="ascii") as file:
        text = file.read()
    return {it.group(2): (it.group(1) == "BUG", f"{name}:{text.count(chr(10), 0, it.start()) + 1}")
            for it in ROW.finditer(text)}


def lines_of_faults(folder: str, known: Set[str]) -> Set[str]:
    """Of each fault the first known line of its stack, or else all of that. addr2line does not know all functions that
    Clang has inlined."""
    side, program = side_of(f"{folder}/t.trace"), f"{folder}/hidden"
    stacks = []
    for fault in side.faults():
        modules = [(place, side.module(place)) for place in fault.place]
        stacks.append([hex(place - 1 - base) for place, (path, base) in modules if path == program])
    asked = sorted({place for stack in stacks for place in stack})
    tool = shutil.which("llvm-addr2line") or "addr2line"
    said = run([tool, "-a", "-i", "-e", program], folder, "\n".join(asked).encode()).stdout.decode()
    parts = re.split(r"^0x[0-9a-f]+\n", said, flags=re.M)[1:]
    lines = {place: [os.path.basename(it.split(" (")[0]) for it in part.split()] for place, part in zip(asked, parts)}
    found = set()
    for stack in stacks:
        frames = [line for place in stack for line in lines[place]]
        found.add(next((it for it in frames if it in known), " ".join(frames)))
    return found


def lines_found(folder: str, known: Set[str], *argv: str) -> Tuple[bytes, Set[str]]:
    """What a program prints, and the lines of its reports."""
    ran = run(["./hidden", *argv], folder, ASANCOL_TRACE="t.trace", ASANCOL_WHERE="1")
    expect((ran.returncode, ran.stderr, Trace(f"{folder}/t.trace").is_closed), (0, b"", True), f"{argv}")
    found = lines_of_faults(folder, known)
    for name in ("t.trace", "t.trace.where"):
        os.unlink(f"{folder}/{name}")
    return ran.stdout, found


def check_c(suite: Suite, folder: str, compiler: Compiler, plain: str, flags: Sequence[str]) -> None:
    """Each bug has a report at its line. A good one has none, and the same results as without checks."""
    rows = rows_of("hidden.def")
    compiler.c(folder, [f"{TESTS}/hidden.c"], f"{folder}/hidden", "-w", *flags)
    known = {line for _, line in rows.values()}
    said, found = lines_found(folder, known)
    done = set(said.decode().split())
    if compiler.name == "clang":
        done -= NOT_BY_CLANG
    expect(found, {rows[it][1] for it in done if rows[it][0]}, "lines of reports")
    said, found = lines_found(folder, known, "good")
    expect((said, found), (run([plain, "good"], folder).stdout, set()), "with enough room")


def check_cpp(suite: Suite, folder: str, compiler: Compiler, flags: Sequence[str]) -> None:
    """The same in C++."""
    compiler.cpp(folder, [f"{TESTS}/hidden.cpp"], f"{folder}/hidden", "-w", "-std=c++17", *flags)
    known = {line for _, line in rows_of("hidden.cpp").values()}
    expect(lines_found(folder, known)[1], known, "lines of reports")
    expect(lines_found(folder, known, "good")[1], set(), "with enough room")


def wrapper_without(folder: str, name: str, plugin: bytes) -> str:
    """A wrapper beside which there is another plugin; with no bytes none."""
    os.mkdir(f"{folder}/{name}")
    for it in os.listdir(os.path.dirname(CC)):
        if it in ("cxx", "include", "cold_reports.h", "no-second-allocator.ld") or it.endswith(".a"):
            os.symlink(f"{os.path.dirname(CC)}/{it}", f"{folder}/{name}/{it}")
    shutil.copy(CC, f"{folder}/{name}/asancol-cc")
    if plugin:
        with open(f"{folder}/{name}/{PLUGIN}", "wb") as file:
            file.write(plugin)
    return f"{folder}/{name}/asancol-cc"


def check_without_plugin(suite: Suite, folder: str) -> None:
    """A plugin that was made for another version or another configuration of GCC, is broken or not there, is not used.
    Then what C compares is checked all the same. The same compiler is known behind a script."""
    with open(f"{os.path.dirname(CC)}/{PLUGIN}", "rb") as file:
        plugin = file.read()
    version, configured = plugin.split(b"asancol's plugin for GCC\0")[1].split(b"\0")[:2]
    others = {"none": b"", "cut": plugin[:1000],
              "version": plugin.replace(b"\0" + version, b"\0" + version[:-1] + b"9"),
              "configured": plugin.replace(configured, configured[:-1] + b"?")}
    wrappers = {name: wrapper_without(folder, name, it) for name, it in others.items()}
    write(folder, script="#!/bin/sh\nexec gcc \"$@\"\n")
    os.chmod(f"{folder}/script", 0o755)
    for compiler in ("gcc", f"{folder}/script"):
        for name, wrapper in {**wrappers, "used": CC}.items():
            said = run([wrapper, "-###", "-c", "any.c"], folder, ASANCOL_CC=compiler).stderr
            seen = (b"-fplugin=" in said, b"-fno-builtin-memcmp" in said)
            expect(seen, (name == "used", name != "used"), f"{compiler} with {name}")
    source = [f"{TESTS}/hidden.c", "-w", "-g", "-O2", "-o", "hidden"]
    expect(run([wrappers["none"], *source], folder, ASANCOL_CC="gcc").returncode, 0, "the build")
    rows = rows_of("hidden.def")
    found = lines_found(folder, {line for _, line in rows.values()})[1]
    expect([it for it in rows if re.match("memcmp|bcmp", it) and rows[it][1] not in found], [], "what is missed")
    major = version.decode().split(".", maxsplit=1)[0]
    lacking = f"intrinsics and complex numbers (no plugin for GCC {major})"
    ways: Tuple[List[str], ...] = ([], ["-flto"], ["-s"])
    for words in ways:
        for wrapper, wanted in ((wrappers["none"], [lacking]), (CC, [])):
            expect(run([wrapper, *source, *words], folder, ASANCOL_CC="gcc").returncode, 0, "the build")
            expect(noted(f"{folder}/hidden"), wanted, f"{words}: the note of {wrapper}")
    said = run([wrappers["none"], "-v", "-c", *source[:2]], folder, ASANCOL_CC="gcc").stderr
    expect(b"libasancol_gcc.so: missing for this version of GCC" in said, True, "-v")


def tests(suite: Suite, compiler: Compiler) -> None:
    if compiler.name == "gcc" and not has_plugin(CC):
        leave_out("gcc has no plugin: make recorder did not find its headers, as of gcc-12-plugin-dev")
        return
    plain = suite.built(compiler.c, [f"{TESTS}/hidden.c"], f"hidden-{compiler}", "-w", native=True)
    more = (["-O1"], ["-O3"], ["-Os"], ["-O2", "-flto"]) if compiler.name == "gcc" else ()
    for flags in (["-O0"], ["-O2"], *more):
        suite.test(f"{compiler} hidden accesses {' '.join(flags)}", check_c, compiler, plain, flags)
    if compiler.name == "gcc":
        suite.test(f"{compiler} hidden accesses without its plugin", check_without_plugin)
        for it in versions_of("gcc"):
            if has_plugin_for(CC, it):
                suite.test(f"{it} hidden accesses -O2", check_c, it, plain, ["-O2"])
    for flags in (["-O0"], ["-O2"]) if compiler.cxx else ():
        suite.test(f"{compiler} hidden accesses c++ {' '.join(flags)}", check_cpp, compiler, flags)
