"""Passes of ours, which make the compilers' checks cheaper: what a program prints and each report, in order, are the
same without them. The programs (passes/) have bad accesses of all forms, and values in registers across them.

GCC alone leaves out a check where it has seen one of the same address, which its pass does not: a report that comes in
addition is one that -O0 has in that line."""

import bisect
import glob
import os
import shutil
from typing import List, NamedTuple, Optional, Sequence, Set, Tuple

from support import CC, RECORDER, TESTS, Compiler, Failure, Later, Suite, Trace, build, expect, has_plugin_for
from support import leave_out, placed, run
from testing import traces
from testing.lines import lines_of

LEVELS = ("-O0", "-O1", "-O2", "-O3", "-Os")
SOURCES = ("accesses.c", "frames.c", "jumps.c", "registers.c", "threads.c", "wild.c", "nested.c", "objects.cpp")
BY_GCC = ("nested.c",)
# It has accesses at addresses where nothing is, and no reports.
WITHOUT_REPORTS = "wild.c"
# Other forms of programs, at -O2, each with some sources.
FORMS = {
    "-fomit-frame-pointer": ("accesses.c", "registers.c", "jumps.c"),
    "-mcmodel=large": ("accesses.c", "registers.c"),
    "-static": ("accesses.c", "jumps.c"),
    "-flto": ("accesses.c", "frames.c"),
    "-march=native": ("accesses.c", "registers.c"),
    "-shared": ("accesses.c", "registers.c", "jumps.c"),
}
# How GCC's plugin is told to leave its checks to GCC. Clang's passes are beside its wrapper, and not beside another.
PLAIN_GCC = "-fplugin-arg-libasancol_gcc-plain"
CLANG_PASSES = "libasancol_clang"
# Frames lie elsewhere with other checks, at a multiple of this.
FRAME = 16


class Said(NamedTuple):
    """A report: the access and its bytes, the class, how far into its block it is, and the line of the source."""

    kind: str
    size: str
    wrong: str
    place: str
    line: str


class Seen(NamedTuple):
    printed: str
    status: int
    reports: List[Said]
    good: int  # accesses that were taken for bad ones


def without_passes(folder: str) -> None:
    """Makes a folder of the wrappers and all files beside them, except Clang's passes."""
    os.mkdir(folder)
    for name in os.listdir(RECORDER):
        if not name.startswith(CLANG_PASSES):
            os.symlink(f"{RECORDER}/{name}", f"{folder}/{name}")
    for name in ("asancol-cc", "asancol-c++"):  # each looks beside its own file
        os.unlink(f"{folder}/{name}")
        shutil.copy2(f"{RECORDER}/{name}", folder)


def make(compiler: Compiler, wrappers: str, source: str, program: str, *flags: str) -> None:
    is_cpp = source.endswith(".cpp")
    command, setting = ("asancol-c++", "ASANCOL_CXX") if is_cpp else ("asancol-cc", "ASANCOL_CC")
    name = (compiler.cxx if is_cpp else compiler.name) or compiler.name
    path = f"{TESTS}/{source if '/' in source else f'passes/{source}'}"
    argv = [f"{wrappers}/{command}", "-g", "-w", *(["-std=c++20"] if is_cpp else []), *flags]
    if "-shared" in flags:
        build([*argv, "-fPIC", "-Dmain=entry", path, "-o", f"{program}.so"], ".", **{setting: name})
        with open(f"{program}.c", "w", encoding="utf-8") as file:
            file.write("int entry(void);\nint main(void) { return entry(); }\n")
        argv, path = [it for it in argv if it != "-shared"], f"{program}.c"
        argv.append(f"{program}.so")
    build([*argv, path, "-pthread", "-lm", "-o", program], ".", **{setting: name})


class Blocks:
    """The starts of all blocks of a trace. So short a run has none of them twice."""

    def __init__(self, trace: Trace) -> None:
        self.starts = sorted(start for code, start, _ in trace.events if code == traces.MALLOC)
        self.sizes = {start: size for code, start, size in trace.events if code == traces.MALLOC}

    def place(self, address: int) -> str:
        """How far an address is into the block that begins before its redzone, or from where frames may begin."""
        at = bisect.bisect(self.starts, address + 32) - 1
        start: Optional[int] = self.starts[at] if at >= 0 else None
        if start is None or address >= start + self.sizes[start] + 64:
            return f"{address % FRAME}"
        return f"{address - start:+d}"


def seen(suite: Suite, folder: str, program: str) -> Seen:
    """Runs it at the same addresses each time, and reads its trace."""
    trace = f"{program}.trace"
    ran = run(["setarch", "-R", program], folder, ASANCOL_TRACE=trace, ASANCOL_WHERE="1")
    expect(ran.stderr, b"", program)
    places, _ = placed(suite.asancol, trace)
    lines, _ = lines_of(run([suite.asancol, "check", trace], ".").stdout)
    recorded = Trace(trace)
    expect(recorded.is_closed, True, trace)
    blocks = Blocks(recorded)
    ats = [blocks.place(line.address) for line in lines]
    reports = [Said(it.kind, it.width, it.wrong, at, it.line) for it, at in zip(places, ats)]
    count = recorded.count(traces.LOAD) + recorded.count(traces.STORE)
    good = count - sum(it.kind in ("load", "store") for it in reports)
    for path in glob.glob(f"{trace}*"):
        os.unlink(path)
    return Seen(ran.stdout.decode(), ran.returncode, reports, good)


def first_lost(found: Sequence[Said], wanted: Sequence[Said]) -> Tuple[Optional[Said], List[Said]]:
    """The first of the wanted ones that is not found in this order, and all others that are found."""
    added, at = [], 0
    for it in found:
        if at < len(wanted) and it == wanted[at]:
            at += 1
        else:
            added.append(it)
    return (wanted[at] if at < len(wanted) else None), added


def lines_unoptimized(suite: Suite, folder: str, compiler: Compiler, plain: Sequence[str],
                      source: str) -> Set[Tuple[str, str]]:
    """The class and the line of each report at -O0."""
    make(compiler, RECORDER, source, f"{folder}/unoptimized", "-O0", *plain)
    return {(it.wrong, it.line) for it in seen(suite, folder, f"{folder}/unoptimized").reports}


def check_same(suite: Suite, folder: str, compiler: Compiler, plain_wrappers: str, source: str,
               flags: Sequence[str]) -> None:
    is_gcc = compiler.name == "gcc"
    plain = [PLAIN_GCC] if is_gcc else []
    make(compiler, RECORDER, source, f"{folder}/with", *flags)
    make(compiler, plain_wrappers, source, f"{folder}/plain", *flags, *plain)
    found, wanted = (seen(suite, folder, f"{folder}/{it}") for it in ("with", "plain"))
    expect(found.printed.splitlines(), wanted.printed.splitlines(), "what it prints")
    expect(found.status, wanted.status, "its status")
    expect(found.good, wanted.good, "how many good accesses are recorded")
    expect(bool(wanted.reports), source != WITHOUT_REPORTS, "that there are reports")
    lost, added = first_lost(found.reports, wanted.reports)
    if lost is not None or (added and not is_gcc):
        raise Failure(f"lost, or in another order: {lost}; in addition: {added[:3]}")
    if added:
        known = lines_unoptimized(suite, folder, compiler, plain, source)
        expect([it for it in added if (it.wrong, it.line) not in known], [], "reports that -O0 has not")


def tests(suite: Suite, compiler: Compiler) -> None:
    is_gcc = compiler.name == "gcc"
    if is_gcc and not has_plugin_for(CC, compiler):
        leave_out("passes: gcc has no plugin")
        return
    plain = f"{suite.folder}/without-passes"
    wrappers = RECORDER if is_gcc else Later(plain, without_passes, plain)
    for source in SOURCES:
        if (source in BY_GCC and not is_gcc) or (source.endswith(".cpp") and not compiler.cxx):
            continue
        for level in LEVELS:
            suite.test(f"passes: {source} {compiler} {level}", check_same, compiler, wrappers, source, [level])
    for form, sources in FORMS.items():
        for source in sources:
            suite.test(f"passes: {source} {compiler} -O2 {form}", check_same, compiler, wrappers, source, ["-O2", form])
