"""Faults and near misses in C and C++: each has its report, and nothing else, as AddressSanitizer has it."""

import os
import re

from support import TESTS, Failure, by_sanitizer, expect, placed, reports, run, same_as_sanitizer, write


def check_fault(suite, folder, program, name, expected, beside, sanitized):
    trace = f"{folder}/t.trace"
    ran = run([program, name], folder, ASANCOL_TRACE=trace)
    expect(ran.returncode, 0, "status of the program")
    expect(ran.stderr, b"", "standard error of the program")
    status, texts, end = reports(suite.asancol, trace)
    wanted = expected.split("; ") if expected else []
    expect(texts, wanted, "reports")
    expect(end.split()[0], "closed", "fate")
    expect(status, 1 if wanted else 0, "status")
    if sanitized and beside == "same":
        said = by_sanitizer(run([sanitized, name], folder, ASAN_OPTIONS="detect_leaks=0").stderr.decode())
        if not wanted:
            expect(said, None, "AddressSanitizer")
        elif said is None or not same_as_sanitizer(texts[0], said):
            raise Failure(f"AddressSanitizer says {said}, the trace {texts[0]!r}")
    elif sanitized and beside == "class":
        said = by_sanitizer(run([sanitized, name], folder, ASAN_OPTIONS="detect_leaks=0").stderr.decode())
        expect(said is not None, True, "found by AddressSanitizer")


GAPS = {16: 64, 32: 128, 64: 512, 128: 4096, 256: 1 << 14, 512: 1 << 15, 1024: 1 << 16}


def gap_of(size):
    """How far AddressSanitizer keeps a block of this size from others."""
    return next((it for it, end in GAPS.items() if size <= end - it), 2048)


def check_distances(suite, folder, program, sanitized, seed, steps):
    """Loads near blocks of drawn sizes. Loads in a live block are good, those near one are bad, by AddressSanitizer's
    distances. The checker says the same of each as the recorder's shadow."""
    argv = [str(seed), str(steps)]
    ran = run([program, *argv], folder, ASANCOL_TRACE="t.trace")
    loads = [[int(word) for word in line.split()] for line in ran.stdout.decode().splitlines()]
    live = [it for it in loads if it[1]]
    expect([it for it in live if 0 <= it[2] < it[0] and it[3]], [], "bad in a live block")
    near = [it for it in live if -gap_of(it[0]) <= it[2] < 0 or it[0] <= it[2] < it[0] + gap_of(it[0])]
    expect([it for it in near if not it[3]], [], "good near a live block")
    checked = run([suite.asancol, "check", "t.trace"], folder).stdout.decode().splitlines()
    expect(len(checked) - 1, sum(it[3] for it in loads), "reports")
    if sanitized:
        ran = run([sanitized, *argv, "compare"], folder, ASAN_OPTIONS="detect_leaks=0")
        found = [line.endswith("1") for line in ran.stdout.decode().splitlines()]
        expect(len(found), len(loads), "loads with AddressSanitizer")
        expect(sum(it[3] for it in loads) >= sum(found), True, "as many as with AddressSanitizer")


CPP = {
    "past_new": ["store 4 +16 heap-buffer-overflow"],
    "after_delete": ["load 8 +8 heap-use-after-free"],
    "twice": ["free +0 double-free"],
    "past_a_vector": ["load 1 +10 heap-buffer-overflow"],
    "after_growth": ["load 8 +8 heap-use-after-free"],
    "past_a_string": ["load 1 +41 heap-buffer-overflow"],
    "past_an_aligned_new": ["store 1 +10 heap-buffer-overflow"],
    "past_an_aligned_array": ["store 1 +10 heap-buffer-overflow"],
    "clean": [],
}


def check_cpp(suite, folder, program, sanitized, name, wanted):
    ran = run([program, name], folder, ASANCOL_TRACE="t.trace", ASANCOL_WHERE="1")
    expect((ran.returncode, ran.stderr), (0, b""))
    status, texts, end = reports(suite.asancol, f"{folder}/t.trace")
    expect((status, texts, end.split()[0]), (1 if wanted else 0, wanted, "closed"))
    if sanitized and wanted:
        said = by_sanitizer(run([sanitized, name], folder).stderr.decode())
        if said is None or not same_as_sanitizer(texts[0], said):
            raise Failure(f"AddressSanitizer says {said}, the trace {texts[0]!r}")
    found, _ = placed(suite.asancol, f"{folder}/t.trace")
    expect([it for it in found if not re.search(r":\d+$", it.line)], [], "reports without a line")


# Arrays of what has a destructor: before the elements is their count, which belongs to the compiler.
ARRAYS = """
#include <cstdlib>
#include <cstring>
#include <memory>
#include <sanitizer/asan_interface.h>
struct Shape { long side = 1; ~Shape() { side = 0; } };
struct alignas(64) Wide { long side = 1; ~Wide() { side = 0; } };
static volatile long sink;
template <class T> static T *make(int count)
{
    T *p = new T[count];
    __asm__ volatile("" : "+r"(p) : : "memory");
    return p;
}
int main(int count, char **argv)
{
    const char *name = count > 1 ? argv[1] : "";
    Shape *p = make<Shape>(3);
    Wide *q = make<Wide>(2);
    if (!strcmp(name, "read"))
        sink = ((volatile long *)p)[-1];
    if (!strcmp(name, "written"))
        ((volatile char *)p)[-8] = 3;
    if (!strcmp(name, "wide"))
        sink = ((volatile long *)q)[-1];
    if (!strcmp(name, "freed")) {
        delete[] p;
        sink = ((volatile long *)p)[-1];
        return 0;
    }
    delete[] p;
    delete[] q;
    if (!strcmp(name, "twice"))
        delete[] p;
    delete[] make<Shape>(0);
    for (int i = 0; i < 100; i++)
        std::unique_ptr<Shape[]> several(make<Shape>(i));
    return 0;
}
"""

ARRAY_FAULTS = {
    "read": "load 8 +0 use-after-poison",
    "written": "store 1 +0 use-after-poison",
    "wide": "load 8 +56 use-after-poison",
    "freed": "load 8 +0 heap-use-after-free",
    "twice": "free +0 double-free",
    "good": "",
}


def check_arrays(suite, folder, compiler):
    """The count of an array's elements is found where Clang's AddressSanitizer finds it. An array that is deleted twice
    is one report. In each segment the count is poisoned again."""
    write(folder, arrays_cpp=ARRAYS)
    for level in ("-O0", "-O2"):
        compiler.cpp(folder, ["arrays.cpp"], f"{folder}/arrays", level, "-w", "-std=c++17")
        compiler.cpp(folder, ["arrays.cpp"], f"{folder}/beside", level, "-w", "-std=c++17", "-fsanitize=address",
                     native=True)
        for name, wanted in ARRAY_FAULTS.items():
            ran = run(["./arrays", name], folder, ASANCOL_TRACE="t.trace")
            expect((ran.returncode, ran.stderr), (0, b""), name)
            expect(reports(suite.asancol, f"{folder}/t.trace")[1], [wanted] if wanted else [], f"{level} {name}")
            os.unlink(f"{folder}/t.trace")
            ran = run(["./beside", name], folder, ASAN_OPTIONS="detect_leaks=0")
            expect(by_sanitizer(ran.stderr.decode()) is not None, bool(wanted), f"AddressSanitizer, {level} {name}")
        expect(run(["./arrays", "read"], folder).returncode, 0, "off")
        expect(run(["./arrays", "read"], folder, ASANCOL_HALT="1").returncode, -6, "to end at the first fault")


def distance_tests(suite, compiler):
    sources, name = [f"{TESTS}/distances.c"], f"distances-{compiler}"
    sanitized = None
    if compiler.has_sanitizer:
        sanitized = suite.built(compiler.c, sources, f"{name}-sanitized", "-w", "-fsanitize=address", native=True)
    program = suite.built(compiler.c, sources, name, "-w")
    suite.test(f"{compiler} distances", check_distances, program, sanitized, 1, 4000)


def rows_of_faults(suite):
    """The rows of faults.c, as a program prints them that is built without a recorder."""
    program = f"{suite.folder}/rows-of-faults"
    if not os.path.exists(program):
        suite.compilers[0].c(suite.folder, [f"{TESTS}/faults.c"], program, "-w", "-pthread", native=True)
    return [line.split("\t") for line in run([program, "--list"], ".").stdout.decode().splitlines()]


def fault_tests(suite, compiler):
    sources = [f"{TESTS}/faults.c"]
    for level in ("-O0", "-O2"):
        name, flags = f"faults-{compiler}{level}", [level, "-w", "-pthread"]
        program, sanitized = suite.built(compiler.c, sources, name, *flags), None
        if compiler.has_sanitizer:
            flags.append("-fsanitize=address")
            sanitized = suite.built(compiler.c, sources, f"{name}-sanitized", *flags, native=True)
        for row, expected, beside in rows_of_faults(suite):
            suite.test(f"{compiler} {level} {row}", check_fault, program, row, expected, beside, sanitized)


def cpp_tests(suite, compiler):
    sources = [f"{TESTS}/new.cpp"]
    for level in ("-O0", "-O2"):
        name, flags = f"new-{compiler}{level}", [level, "-w", "-std=c++17"]
        program, sanitized = suite.built(compiler.cpp, sources, name, *flags), None
        if compiler.has_sanitizer:
            flags.append("-fsanitize=address")
            sanitized = suite.built(compiler.cpp, sources, f"{name}-sanitized", *flags, native=True)
        for row, wanted in CPP.items():
            suite.test(f"{compiler} {level} c++ {row}", check_cpp, program, sanitized, row, wanted)


def tests(suite, compiler):
    distance_tests(suite, compiler)
    fault_tests(suite, compiler)
    if compiler.cxx:
        cpp_tests(suite, compiler)
    if compiler.cxx and compiler.name == "clang" and compiler.has_sanitizer:
        suite.test(f"{compiler} arrays with a count", check_arrays, compiler)
