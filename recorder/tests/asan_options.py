"""Options of AddressSanitizer that change which accesses of a call are checked: each case has a report with the same
values of them as there."""

import os
import re

from support import TESTS, expect, reports, run

SOURCE = f"{TESTS}/asan_options.cpp"
STRICT = "strict_string_checks"
# AddressSanitizer does not look at these calls.
ALONE = "alone"


def names():
    with open(SOURCE, encoding="utf-8") as file:
        return re.findall(r'^    \{"([^"]+)", \[\]', file.read(), re.M)


def rows(name):
    """The options to run a case with, and whether it then has a report."""
    option = name.split()[0]
    if option in ("strict", ALONE):
        return [("", False), (f"{STRICT}=0", False), (f"{STRICT}=1", True)]
    if option == "never":
        return [(f"{STRICT}=true", False)]
    return [("", True), (f"{option}=1", True), (f"{option}=0", False), (f"{option}=false", False)]


def is_reported(suite, folder, program, name, options):
    trace = f"{folder}/t.trace"
    ran = run([program, name], folder, ASANCOL_TRACE=trace, ASAN_OPTIONS=options)
    expect(ran.returncode, 0, f"{name} with {options}")
    _, found, _ = reports(suite.asancol, trace)
    os.unlink(trace)
    return bool(found)


def check_case(suite, folder, program, sanitized, name):
    for options, wanted in rows(name):
        expect(is_reported(suite, folder, program, name, options), wanted, f"recorded with {options}")
        if name.split()[0] != ALONE:
            ran = run([sanitized, name], folder, ASAN_OPTIONS=f"detect_leaks=0:{options}")
            expect(b"ERROR: AddressSanitizer: " in ran.stderr, wanted, f"AddressSanitizer with {options}")


LIBRARY = """
#include <string.h>
extern "C" bool has_three(const char *text) { return strchr(text, '3') != nullptr; }
"""
USER = """
#include <sanitizer/asan_interface.h>
extern "C" bool has_three(const char *text);
static char text[64] __attribute__((aligned(16))) = "0123456/89abcdefghijklm";
int main() { __asan_poison_memory_region(text + 8, 56); return !has_three(text); }
"""


def check_library(suite, folder, compiler, is_native):
    """In a shared object the options of the program count."""
    for name, text in (("l.cpp", LIBRARY), ("p.cpp", USER)):
        with open(f"{folder}/{name}", "w", encoding="utf-8") as file:
            file.write(text)
    compiler.cpp(folder, ["l.cpp"], "l.so", "-fno-builtin", "-shared", "-fPIC", native=is_native)
    compiler.cpp(folder, ["p.cpp", "./l.so"], "p", "-fno-builtin")
    for options, wanted in (("", False), (f"{STRICT}=1", True), (f"{STRICT}=1:intercept_strchr=0", False)):
        expect(is_reported(suite, folder, "./p", "", options), wanted, options)


def tests(suite, compiler):
    if not compiler.cxx or not compiler.has_sanitizer:
        return
    flags = ["-w", "-O0", "-std=c++17", "-fno-builtin"]
    program = suite.built(compiler.cpp, [SOURCE], f"asan_options-{compiler}", *flags)
    sanitized = suite.built(compiler.cpp, [SOURCE], f"asan_options-{compiler}-sanitized", *flags, "-fsanitize=address",
                            native=True)
    for name in names():
        if compiler.name == "clang" or not name.startswith("poison_array_cookie"):
            suite.test(f"{compiler} options of AddressSanitizer: {name}", check_case, program, sanitized, name)
    for is_native in (False, True):
        kind = "a plain library" if is_native else "a library"
        suite.test(f"{compiler} options of AddressSanitizer: {kind}", check_library, compiler, is_native)
