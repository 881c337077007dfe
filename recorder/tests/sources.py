"""Tests of the recorder's own files: each header is enough by itself, and what a signal handler may reach calls nothing
that could meet a lock which its thread has, or memory that is being allocated."""

import glob
import os
import re
import subprocess
from typing import Dict, Iterator, List, Set

from support import RECORDER, Compiler, Suite, build, expect, write
from testing.programs import call

OUT = f"{RECORDER}/out/program"
# Where the names of headers begin.
ROOTS = ("-iquote", RECORDER, "-iquote", os.path.dirname(RECORDER))

# Names that are not functions, or are the program's.
CONSTANT = set("_GLOBAL_OFFSET_TABLE_ _DYNAMIC __ehdr_start __preinit_array_start main asancol_checks "
               "asancol_register_early "
               "__lsan_is_turned_off asancol_every_call asancol_every_memcpy asancol_every_memmove "
               "asancol_every_memset __start_asancol_own_text __stop_asancol_own_text "
               "__start_asancol_helper_text __stop_asancol_helper_text".split())

# Of the C library, which is called by address: variables, what only looks something up, and a call of the system's.
SAFE = {"__libc_single_threaded", "__libc_stack_end", "environment", "_dl_find_object", "clock_gettime", "sigaction"}

# What these call besides: at the start of the process and its end, for its threads and libraries, or for a call of the
# program's. The head of each says which of its functions a handler may call (tools/heads.py).
BESIDES = {
    "environment/asan_options.o": {"__lsan_default_options", "__lsan_default_suppressions"},
    "environment/settings.o": {"LLVMFuzzerTestOneInput"},
    "heap/allocation.o": {"fputs", "stderr_stream"},
    "interface/odr.o": {"dlsym", "dlvsym", "dlerror"},
    "leaks/leaks.o": {"dl_iterate_phdr"},
    "process/signals.o": {"__local_ubsan_preinit"},
    "leaks/roots.o": {"dl_iterate_phdr", "_dl_get_tls_static_info"},
    "libc/library.o": {"dl_iterate_phdr", "vsnprintf", "stderr_stream", "optind", "_dl_get_tls_static_info",
                       "_thread_db_sizeof_pthread"},
    "process/own_run.o": {"LLVMFuzzerTestOneInput"},
    "process/plain.o": {"dl_iterate_phdr", "dlsym", "dlvsym", "vsnprintf", "__start_asancol_stubs",
                        "__stop_asancol_stubs"},
    "process/process.o": {"__register_atfork"},
    "process/threads.o": {"pthread_attr_destroy", "pthread_attr_getstacksize", "pthread_getattr_default_np",
                          "pthread_key_create", "pthread_setspecific", "_dl_get_tls_static_info"},
    "process/unchecked.o": {"dlerror", "dlsym"},
    "start/start.o": {"__cxa_atexit", "__cxa_at_quick_exit", "_IO_flush_all", "exit", "fcloseall", "on_exit"},
    "start/undefined.o": {"_ZN11__sanitizer14AddDieCallbackEPFvvE"},
}
# The checks of calls: each calls the function that the program has called, in a handler too where that may be.
CHECKS_OF_CALLS = "calls/"
# Made of the others.
WHOLE = ("all.o", "checks.o")


def names(object_file: str, *which: str) -> Set[str]:
    """Returns names of an object's table. Those of wrapped functions are as the program has them."""
    ran = call(["nm", *which, object_file], stdout=subprocess.PIPE, check=True)
    return {re.sub(r"^__real_", "", line.split()[-1]) for line in ran.stdout.decode().splitlines()}


def own_names(object_file: str) -> Set[str]:
    """Returns what an object defines, except the weak names that are the program's: the recorder must not allocate
    for itself, nor start a thread."""
    ran = call(["nm", "--defined-only", "--extern-only", object_file], stdout=subprocess.PIPE, check=True)
    lines = [line.split() for line in ran.stdout.decode().splitlines()]
    return {words[-1] for words in lines if words[1] != "W" or words[-1].startswith(("__asan_", "asancol_", "__wrap_"))}


def objects() -> List[str]:
    """Returns the objects of which all.o is made and those beside it, by their names in `out`, except of sources that
    were moved since."""
    found = sorted(glob.glob(f"{OUT}/**/*.o", recursive=True))
    names_of = [os.path.relpath(path, OUT) for path in found]
    return [it for it in names_of if it not in WHOLE and os.path.exists(f"{RECORDER}/{it[:-2]}.c")]


def called_by_address(part: str) -> Set[str]:
    """Returns what a source takes of the table of the C library's functions."""
    with open(f"{RECORDER}/{part[:-2]}.c", encoding="utf-8") as file:
        return set(re.findall(r"(?<!>)\blibrary\.(\w{2,})", file.read()))


def unsafe_names() -> Iterator[str]:
    allowed = set(CONSTANT)
    parts = objects()
    expect(len(parts) > 30, True, "the objects")
    for part in parts:
        allowed |= own_names(f"{OUT}/{part}")
    for part in parts:
        if not part.startswith(CHECKS_OF_CALLS):
            called = names(f"{OUT}/{part}", "--undefined-only") | called_by_address(part)
            yield from (f"{part}: {name}" for name in sorted(called - allowed - SAFE - BESIDES.get(part, set())))


def check_handlers(suite: Suite, folder: str) -> None:
    expect(list(unsafe_names()), [], "not to be called in a signal handler")


def folders_from_below() -> List[str]:
    """Returns the folders of sources in their order, which README.md has."""
    with open(f"{RECORDER}/README.md", encoding="utf-8") as file:
        return re.findall(r"^\| `(\w+)` \|", file.read(), re.M)


def parts_with_includes() -> Dict[str, Set[str]]:
    """Returns for each part, a header with its source, the parts that it includes."""
    found: Dict[str, Set[str]] = {}
    for path in glob.glob(f"{RECORDER}/*/*.[ch]"):
        part = os.path.relpath(path, RECORDER)[:-2]
        if not part.startswith(("tests/", "out/")):
            with open(path, encoding="utf-8") as file:
                included = re.findall(r'^ *#include "(\w+/\w+)\.h"', file.read(), re.M)
            found.setdefault(part, set()).update(it for it in included if it != part)
    return found


def check_layers(suite: Suite, folder: str) -> None:
    """No folder includes one above it, and no part itself by others: lower layers call higher ones by a table
    (stream/state.h)."""
    order, left = folders_from_below(), parts_with_includes()
    expect(len(left) > 50, True, "parts")
    expect({part.partition("/")[0] for part in left} - set(order), set(), "folders without a place")
    at = {part: order.index(part.partition("/")[0]) for part in left}
    expect([f"{part} {it}" for part in sorted(left) for it in sorted(left[part]) if at.get(it, 0) > at[part]], [],
           "includes upward")
    while True:
        low = [part for part, included in left.items() if not included & left.keys()]
        if not low:
            break
        for part in low:
            del left[part]
    expect(sorted(left), [], "parts in a cycle of includes")


# What belongs to a processor: assembly, names of registers and of relocations, headers of single processors.
OF_A_PROCESSOR = re.compile(r"\b(asm|__asm__|__(x86_64|aarch64)__|[eix]mmintrin|arm_neon|R_(X86_64|AARCH64)_\w+"
                            r"|REG_R[A-Z]+|gregs|_mm_\w+|__m128i)\b")
# Where that stands. platform.h has what any compiler takes; Clang's header is for programs, and the wrapper is a
# program of this machine, whichever it compiles for.
PROCESSORS = ("base/x86_64", "base/aarch64", "base/processor", "base/platform.h", "clang_intrinsics.h", "wrapper/",
              "start/program_mark.c", "tests/", "out/")


def check_processors(suite: Suite, folder: str) -> None:
    """All that is one processor's is in its headers (base/processor.h)."""
    found = []
    for path in sorted(glob.glob(f"{RECORDER}/**/*.[chS]", recursive=True)):
        name = os.path.relpath(path, RECORDER)
        if not name.startswith(PROCESSORS):
            with open(path, encoding="utf-8") as file:
                text = re.sub(r"<asm/\w+", "", file.read())
            found += [f"{name}: {it.group()}" for it in OF_A_PROCESSOR.finditer(text)]
    expect(found, [], "only for one processor")


def check_headers(suite: Suite, folder: str, compiler: Compiler) -> None:
    headers = [os.path.relpath(it, RECORDER) for it in glob.glob(f"{RECORDER}/**/*.h", recursive=True)]
    headers += [os.path.relpath(it, f"{RECORDER}/..") for it in glob.glob(f"{RECORDER}/../common/*.h")]
    others = ("tests/", "out/", "cold_reports", "clang_intrinsics", "cxx/", "base/aarch64", "include/asancol/")
    headers = [it for it in headers if not it.startswith(others)]
    expect(len(headers) > 30, True, "headers")
    for header in headers:
        write(folder, alone_c=f'#define _GNU_SOURCE\n#include "{header}"\n')
        build([compiler.name, "-std=c11", "-Wall", "-Werror", *ROOTS, "-fsyntax-only", "alone.c"], folder)


def tests(suite: Suite, compiler: Compiler) -> None:
    suite.test(f"{compiler} headers", check_headers, compiler)


def tests_of_all(suite: Suite) -> None:
    suite.test("signal safety", check_handlers)
    suite.test("layers", check_layers)
    suite.test("processors", check_processors)
