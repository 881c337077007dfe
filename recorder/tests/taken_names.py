"""Tests of names: a program may have any name of the C library's for a function or a variable of its own, and the
recorder calls none of them."""

import os
import shutil
import subprocess
from typing import Dict, List, Sequence, Set, Tuple

from support import RECORDER, Compiler, Suite, expect, reports, run, write
from testing.programs import call

# What a program has as a program: made by the linker, or its start.
LINKED = set("_DYNAMIC _GLOBAL_OFFSET_TABLE_ __ehdr_start _end __preinit_array_start __init_array_start "
             "__init_array_end main asancol_first".split())

# The C library's names where it is a part of the program: names that are kept for it, one for malloc_stats, and `exit`,
# which its start calls, too.
STATIC = """
stderr _IO_cleanup _IO_flush_all _IO_fputs __clock_gettime __cxa_at_quick_exit __cxa_atexit __environ __errno_location
__libc_single_threaded __libc_stack_end __on_exit __register_atfork __sigaction _dl_find_object exit
""".split()

# In a shared object: the allocator that the program has, whichever it is; and in a program without a recorder the name
# of the object, and what the system says of the process.
SHARED = ["aligned_alloc", "dladdr", "getauxval"]

# Before the program is relocated nothing can be looked up yet.
RECORD = ["__libc_stack_end", "__start_asancol_stubs", "__stop_asancol_stubs"]
# Where the recorder's own code begins and ends, as the linker says it.
OWN_CODE = [f"__{end}_asancol_{part}_text" for end in ("start", "stop") for part in ("helper", "own")]
# What a program may have: a fuzzer's function, UBSan's, and what its link asks for by a flag or an option.
MAY_BE = ["LLVMFuzzerTestOneInput", "__local_ubsan_preinit", "_ZN11__sanitizer14AddDieCallbackEPFvvE",
          "asancol_by_flag", "asancol_by_option"]
ARCHIVES: Dict[str, List[str]] = {"record": RECORD + OWN_CODE + MAY_BE, "static": STATIC + OWN_CODE + MAY_BE,
                                  "shared": SHARED}

# The allocator, which has to be whole; and what begins and ends a program.
NOT_OWN = """
malloc free calloc realloc reallocarray memalign aligned_alloc posix_memalign valloc pvalloc malloc_usable_size main
""".split()

MAIN = """
int main(void)
{
    char *volatile block = (char *)__builtin_malloc(5);
    block[5] = 1;
    return 0;
}
"""


def names_of(words: List[str]) -> Set[Tuple[str, str]]:
    """Returns the kinds and the names that nm lists."""
    ran = call(["nm", *words], stdout=subprocess.PIPE, stderr=subprocess.DEVNULL, check=True)
    lines = [line.split() for line in ran.stdout.decode().splitlines()]
    return {(words[-2], words[-1]) for words in lines if len(words) >= 2 and len(words[-2]) == 1}


def check_archives(suite: Suite, folder: str) -> None:
    """Each archive asks for nothing else but the functions that are wrapped, by the names that they have then."""
    for archive, more in ARCHIVES.items():
        names = names_of([f"{RECORDER}/libasancol_{archive}.a"])
        defined = {name for kind, name in names if kind not in "Uw"}
        asked = {name for kind, name in names if kind in "Uw" and not name.startswith(("__real_", "__wrap_"))}
        # What has another name by which a program may call it is the program's, and weak.
        asked -= {name for kind, name in names if kind == "w" and f"__interceptor_{name}" in defined}
        # Those that the runtimes of Clang's sanitizers have.
        asked -= {name for kind, name in names if kind == "w" and name.startswith("__interceptor_")}
        expect(sorted(asked - defined - LINKED - set(more)), [], f"names of the {archive} archive")


def library_names(compiler: Compiler) -> List[str]:
    """Returns all names of the C library that a program may have by the rules of the language, and of the system."""
    path = run([compiler.name, "-print-file-name=libc.so.6"], ".").stdout.decode().strip()
    names = {name.split("@")[0] for _, name in names_of(["-D", "--defined-only", path])}
    return sorted(name for name in names if name[0] not in "_G" and name not in NOT_OWN)


def check_program(suite: Suite, folder: str, compiler: Compiler, form: str, is_cpp: bool) -> None:
    """One program with all of the names. It ends if one of its functions is called, or a variable was a function."""
    names = library_names(compiler)
    expect(len(names) > 1500, True, "names")
    text = "".join(form % name for name in names)
    if is_cpp:
        text = f'extern "C" {{\n{text}}}\n'
    write(folder, **{"all_cpp" if is_cpp else "all_c": text + MAIN})
    make = compiler.cpp if is_cpp else compiler.c
    make(folder, ["all.cpp" if is_cpp else "all.c"], "all", "-w", "-fno-builtin", "-O0")
    ran = run(["./all"], folder)
    expect((ran.returncode, ran.stderr), (0, b""), "if nothing is recorded")
    ran = run(["./all"], folder, ASANCOL_TRACE="all.trace", ASANCOL_WHERE="1")
    expect((ran.returncode, ran.stderr), (0, b""), "recorded")
    status, texts, end = reports(suite.asancol, f"{folder}/all.trace")
    expect((status, texts, end.split()[0]), (1, ["store 1 +5 heap-buffer-overflow"], "closed"))


# A library that is linked without the C library calls that without a version.
LIBRARY = """
#include <string.h>
int use(char *text) { memmove(text + 1, text, 4); return (int)strlen(text); }
"""
USER = """
#include <stdlib.h>
#include <string.h>
int use(char *);
int main(void)
{
    char *volatile text = malloc(8);
    strcpy(text, "abcdef");
    int length = use(text);
    memmove(text, text + 1, 4);
    text[8] = 1;
    return length - 6;
}
"""
LINKS = (
    (),
    ["-Wl,-z,now", "-Wl,--as-needed", "-Wl,--gc-sections"],
    ["-nodefaultlibs", "-lc"],
    ["-ffreestanding"],
    ["-Wl,-Bsymbolic", "-Wl,-z,defs"],
    ["-no-pie", "-fno-pie"],
)


def check_links(suite: Suite, folder: str, compiler: Compiler) -> None:
    """A program with such a library, and a shared object with the recorder's own, by each linker."""
    write(folder, library_c=LIBRARY, user_c=USER)
    compiler.c(folder, ["library.c"], "libplain.so", "-fno-builtin", "-fPIC", "-shared", "-nostdlib", native=True)
    linkers = [it for it in ("bfd", "gold", "lld") if shutil.which(f"ld.{it}")]
    for linker in linkers:
        one = [f"-fuse-ld={linker}", "-fno-builtin", "-w"]
        bare: List[Sequence[str]] = [] if linker == "lld" else [["-nostdlib"]]
        for flags in LINKS:
            compiler.c(folder, ["user.c", "./libplain.so"], "user", *one, *flags)
            expect(seen(suite, folder), ["store 1 +8 heap-buffer-overflow"], f"{linker} {flags}")
        for flags in ((), ["-Wl,-z,defs"], ["-Wl,-Bsymbolic"], *bare):
            compiler.c(folder, ["library.c"], "libuse.so", "-fPIC", "-shared", *one, *flags)
            compiler.c(folder, ["user.c", "./libuse.so"], "user", *one)
            expect(seen(suite, folder), ["store 1 +8 heap-buffer-overflow"], f"{linker} {flags}")


def seen(suite: Suite, folder: str) -> List[str]:
    ran = run(["./user"], folder, ASANCOL_TRACE="user.trace")
    expect((ran.returncode, ran.stderr), (0, b""), "the program")
    found = reports(suite.asancol, f"{folder}/user.trace")[1]
    os.unlink(f"{folder}/user.trace")
    return found


FORMS = {"functions": "long %s(void) { __builtin_trap(); }\n", "variables": "char %s[64] = {1};\n"}


def tests(suite: Suite, compiler: Compiler) -> None:
    for what, form in FORMS.items():
        suite.test(f"{compiler} names as {what}", check_program, compiler, form, False)
        suite.test(f"{compiler} names as {what} of C++", check_program, compiler, form, True)
    suite.test(f"{compiler} names in links", check_links, compiler)


def tests_of_all(suite: Suite) -> None:
    suite.test("names of archives", check_archives)
