"""One access is one report, however many pieces are recorded of it: with its size, its start, and the C library's
function that made it."""

import glob
import os
import re
import signal
from typing import Dict, List, NamedTuple, Tuple

from support import TESTS, Compiler, Suite, expect, run, side_of, write
from testing.lines import lines_of
from testing.side import DYNAMIC, OF_STACK

# The report of each way in accesses.c: the kind, the size, how far from the block it begins, and the function.
Access = Tuple[str, int, int, str]

CALLS = {
    "copy_memory": [("store", 13, 0, "memcpy")],
    "copy_string": [("store", 13, 0, "strcpy")],
    "print": [("store", 13, 0, "snprintf")],
    "scan": [("store", 13, 0, "sscanf")],
    "read_file": [("store", 13, 0, "read")],
    "read_stream": [("store", 13, 0, "fread")],
    "write_file": [("load", 13, 0, "write")],
    "write_pieces": [("load", 13, 0, "writev")],
    "compare": [("load", 13, 0, "memcmp")],
    "clear_two": [("store", 120, 0, "memset")],
    "clear_many": [("store", 4096, 0, "memset")],
    "clear_large": [("store", (40 << 20) + 8, 0, "memset")],
    "store_byte": [("store", 1, 5, "")],
    "free_twice": [("free", 0, 0, "free")],
    "resize_freed": [("free", 0, 0, "realloc")],
}
# Of these the compilers make accesses of other sizes: what of them is bad.
WIDE = {
    "move_vector": [("store", 16, 0, "")],
    "copy_structure": [("store", 24, 0, "")],
    "store_int128": [("store", 16, 0, "")],
    "store_unaligned": [("store", 8, 1, "")],
}
# Clang copies a structure by a call, and reports the first and the last byte of an unaligned access, each by itself.
BY_CLANG = {
    ("copy_structure", "0"): [("store", 24, 0, "memcpy")],
    ("copy_structure", "1"): [("store", 24, 0, "memcpy")],
    ("store_unaligned", "0"): [("store", 8, 1, ""), ("store", 8, 8, "")],
}
NEGATIVE = ("load", (1 << 64) - 1, 0, "memmove")


class Seen(NamedTuple):
    """What a trace says: the reports, without further pieces, and how many lines there are of each."""

    reports: List[Access]
    lines: List[int]


def seen_in(suite: Suite, trace: str) -> Seen:
    """Each further piece has the fault of a report before it."""
    said, _ = lines_of(run([suite.asancol, "check", trace], ".").stdout)
    side = side_of(trace)
    reports: List[Access] = []
    lines: List[int] = []
    known: Dict[int, int] = {}
    for line in said:
        number, fault = side.fault_of(line.event), side.fault_at(line.event)
        expect(fault is not None, True, f"the fault of event {line.event}")
        if side.is_piece(line.event):
            expect(number in known, True, f"what event {line.event} is a piece of")
            lines[known[number]] += 1
            continue
        known[number] = len(reports)
        lines.append(1)
        reports.append((line.access, fault.size, fault.start - fault.block, fault.call))
    return Seen(reports, lines)


def record(folder: str, *argv: str, statuses: Tuple[int, ...] = (0,), **settings: str) -> str:
    for old in glob.glob(f"{folder}/t.*"):
        os.unlink(old)
    ran = run(["./accesses", *argv], folder, ASANCOL_TRACE="t.trace", ASANCOL_WHERE="1", **settings)
    expect((ran.returncode in statuses, ran.stderr), (True, b""), argv)
    return ran.stdout.decode()


def make(folder: str, compiler: Compiler, *flags: str, **settings: str) -> None:
    source = f"{TESTS}/accesses.c"
    compiler.c(folder, [source], f"{folder}/libaccesses.so", "-w", "-shared", "-fPIC", "-DOBJECT", *flags, **settings)
    compiler.c(folder, [source, "./libaccesses.so"], f"{folder}/accesses", "-w", "-pthread", *flags, **settings)


def check_one(suite: Suite, folder: str, compiler: Compiler, where: List[str], every: str) -> None:
    make(folder, compiler, "-O1", "-fno-builtin", ASANCOL_ALL=every)
    for name, wanted in {**CALLS, **WIDE}.items():
        if compiler.name == "clang":
            wanted = BY_CLANG.get((name, every), wanted)
        record(folder, *where, name)
        seen = seen_in(suite, f"{folder}/t.trace")
        if name == "clear_many":
            expect((seen.reports, seen.lines), (wanted, [64]), name)
        else:
            expect(seen.reports, wanted, name)


def check_negative(suite: Suite, folder: str, compiler: Compiler, where: List[str]) -> None:
    """A size below zero is as it was given, and one report. The process goes on into the function, and may end."""
    make(folder, compiler, "-O1", "-fno-builtin")
    record(folder, *where, "copy_negative", statuses=(0, -signal.SIGSEGV))
    seen = seen_in(suite, f"{folder}/t.trace").reports
    expect(seen, [NEGATIVE], "reports")


ONE_CALL = ("store", 13, 0, "memset")
THREADS, TIMES, PIECES = 4, 200, 3


def check_threads(suite: Suite, folder: str, compiler: Compiler, where: List[str]) -> None:
    """Threads whose pieces stand among each other: each call is one report."""
    make(folder, compiler, "-O1", "-fno-builtin")
    record(folder, *where, "threads")
    seen = seen_in(suite, f"{folder}/t.trace")
    expect((set(seen.reports), len(seen.reports)), ({ONE_CALL}, THREADS * TIMES), "reports")
    expect(sum(seen.lines), THREADS * TIMES * PIECES, "lines")


def check_handlers(suite: Suite, folder: str, compiler: Compiler, where: List[str]) -> None:
    """A handler whose calls come between the pieces of another one."""
    make(folder, compiler, "-O1", "-fno-builtin")
    calls, handled = map(int, record(folder, *where, "handlers", ASANCOL_LIMIT=str(1 << 24)).split())
    seen = seen_in(suite, f"{folder}/t.trace").reports
    expect([seen.count(ONE_CALL), seen.count(("store", 15, 0, "memset"))], [calls, handled], "reports")


def check_segments(suite: Suite, folder: str, compiler: Compiler, where: List[str]) -> None:
    """A segment ends between two pieces of a call: that is one report all the same, in the segment with the first."""
    make(folder, compiler, "-O1", "-fno-builtin")
    for limit in (7, 8, 9, 10):
        record(folder, *where, "often", ASANCOL_LIMIT=str(limit))
        reports = lines = 0
        for trace in glob.glob(f"{folder}/t*.trace"):
            said, _ = lines_of(run([suite.asancol, "check", trace], ".").stdout)
            side = side_of(trace)
            faults = [side.fault_at(it.event) for it in said]
            expect({(it.size, it.start - it.block, it.call) for it in faults}, {ONE_CALL[1:]}, trace)
            lines += len(said)
            reports += sum(not side.is_piece(it.event) for it in said)
        expect((reports, lines), (TIMES, TIMES * PIECES), f"a limit of {limit}")


ARRAYS = """
#include <stdlib.h>
static volatile int sink;
static void use(volatile char *p, int at) { p[at] = 1; }
static void in_frame(int at) {
    volatile char first[5]; volatile int second[3];
    second[0] = 1;
    use(first, at); sink = second[0]; }
static void in_array(int count, int at) { volatile char array[count]; use(array, at); }
static void in_alloca(int count, int at) {
    volatile char *p = __builtin_alloca(count), *q = __builtin_alloca(count + 7);
    use(q, 0); use(p, at); }
int main(int count, char **argv) {
    in_frame(6); in_frame(6);
    in_array(count + 12, 14); in_array(count + 12, -3);
    in_alloca(count + 20, 25); in_alloca(count + 15, 16);
    return 0; }
"""


def check_frames(suite: Suite, folder: str, compiler: Compiler) -> None:
    """A variable has its frame, its function, and what the compiler says of all variables there; an array of dynamic
    size where it begins and ends."""
    write(folder, a_c=ARRAYS)
    compiler.c(folder, ["a.c"], f"{folder}/accesses", "-w")
    record(folder)
    side = side_of(f"{folder}/t.trace")
    faults = side.faults()
    first = faults[0]
    expect((first.variable, first.name, first.block_size, first.start - first.block), (OF_STACK, "first", 5, 6), first)
    expect(side.lines([first.function + 1])[0][0], "in_frame", "the function")
    found = re.fullmatch(r"2 (\d+) 5 \d+ first(:6)? (\d+) 12 \d+ second(:6)?", first.variables)
    expect(found is not None, True, first.variables)
    assert found
    expect(first.frame + int(found.group(1)), first.block, "where the frame begins")
    second = next(it for it in faults[1:] if it.variables)
    expect((second.variables, len(side.faults())), (first.variables, 6), "the other call, and all faults")
    arrays = [(it.variable, it.block_size, it.start - it.block, it.name) for it in faults if it.variable != OF_STACK]
    expect(arrays, [(DYNAMIC, size, at, "") for size, at in ((13, 14), (13, -3), (21, 25), (16, 16))], "arrays")


def tests(suite: Suite, compiler: Compiler) -> None:
    suite.test(f"{compiler} accesses in frames", check_frames, compiler)
    for where in ((), ["in_library"]):
        for every in ("0", "1"):
            name = " ".join([compiler.name, "accesses", *where, *(["every"] if every == "1" else [])])
            suite.test(name, check_one, compiler, where, every)
        suite.test(" ".join([compiler.name, "negative size", *where]), check_negative, compiler, where)
        for check in (check_threads, check_handlers, check_segments):
            name = check.__name__.replace("check_", "accesses of ")
            suite.test(" ".join([compiler.name, name, *where]), check, compiler, where)
