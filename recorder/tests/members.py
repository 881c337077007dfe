"""Tests of what comes into a program of the checks of calls: those of the groups that it calls, or all of them if a
library may call any."""

import os
import re
import subprocess
from typing import List, Set

from support import CC, RECORDER, Compiler, Suite, build, expect, reports, run, side_of, write
from testing.programs import call

# This many bytes may the smallest program have more than a plain one.
MOST_MORE = 490_000

# This many KB may be resident of a process that does little.
MOST_RESIDENT = 8_000

SMALLEST = "int main(void) { return 0; }\n"
MALLOCS = """
#include <stdio.h>
#include <stdlib.h>
#include <string.h>
int main(void)
{
    for (size_t i = 8; i < 2000; i += 20) {
        char *p = malloc(i);
        memset(p, 1, i);
        if (i % 3 != 0)
            free(p);
    }
    char line[256];
    FILE *status = fopen("/proc/self/status", "r");
    while (status && fgets(line, sizeof line, status))
        if (strncmp(line, "VmHWM:", 6) == 0)
            printf("%ld", atol(line + 6));
    return status ? fclose(status) : 1;
}
"""
CALLS = """
#include <string.h>
int main(int count, char **argv) { return strlen(argv[count - 1]) == 0; }
"""
OPENS = """
#include <dlfcn.h>
int main(int count, char **argv) { return count > 1 && dlopen(argv[1], RTLD_NOW) == 0; }
"""
# What a library calls that the program does not.
LIBRARY = """
#include <stdlib.h>
#include <string.h>
__attribute__((constructor)) static void measure(void)
{
    char *volatile p = malloc(8);
    memset(p, 'a', 8);
    if (strlen(p) < 8)
        abort();
}
"""
# Without getrandom or strlen in the program, each would be null.
WEAK = """
#include <stddef.h>
extern long getrandom(void *, size_t, unsigned) __attribute__((weak));
extern size_t strlen(const char *) __attribute__((weak));
int main(int count, char **argv) { return !getrandom || !strlen || strlen(argv[count - 1]) == 0; }
"""
LATE = "#include <string.h>\nint late(char *text) { return strtok(text, \" \") == NULL; }\n"
CALLS_LATE = "int late(char *); int main(int count, char **argv) { return late(argv[count - 1]); }\n"


def groups() -> Set[str]:
    with open(f"{RECORDER}/out/groups.def", encoding="ascii") as file:
        return set(re.findall(r"\w+(?=\)\n)", file.read()))


def groups_in(path: str) -> Set[str]:
    ran = call(["nm", path], stdout=subprocess.PIPE, check=True)
    return set(re.findall(r" asancol_calls_(\w+)$", ran.stdout.decode(), re.M)) & groups()


def check_size(suite: Suite, folder: str, compiler: Compiler) -> None:
    write(folder, small_c=SMALLEST)
    compiler.c(folder, ["small.c"], "plain", "-O1", native=True)
    compiler.c(folder, ["small.c"], "small", "-O1")
    for word in ("--strip-debug", "--strip-all"):  # installed files have no debug information
        build(["strip", word, "plain", "small"], folder)
        more = os.path.getsize(f"{folder}/small") - os.path.getsize(f"{folder}/plain")
        expect(more < MOST_MORE, True, f"{word}: {more} bytes more")


def check_memory(suite: Suite, folder: str, compiler: Compiler) -> None:
    """What a process takes by itself, if faults have places too: shadow, tables and what stands beside a trace."""
    write(folder, small_c=MALLOCS)
    compiler.c(folder, ["small.c"], "small", "-O1")
    ran = run(["./small"], folder, ASANCOL_TRACE="t.trace", ASANCOL_WHERE="1")
    expect((ran.returncode, ran.stderr, int(ran.stdout) < MOST_RESIDENT), (0, b"", True), f"{ran.stdout!r} KB")


def check_groups(suite: Suite, folder: str, compiler: Compiler) -> None:
    write(folder, small_c=SMALLEST, calls_c=CALLS, opens_c=OPENS, library_c=LIBRARY)
    compiler.c(folder, ["library.c"], "library.so", "-fPIC", "-shared", native=True)
    rows: List[List[str]] = [["small.c"], ["calls.c"], ["opens.c"], ["small.c", "./library.so"]]
    found = []
    for argv in rows:
        compiler.c(folder, argv, "program", "-fno-builtin", "-Wl,--no-as-needed")
        found.append(groups_in(f"{folder}/program"))
    expect(found[:2], [set(), {"strings"}], "what is called")
    expect(found[2:], [groups(), groups()], "with libraries")


def check_weak(suite: Suite, folder: str, compiler: Compiler) -> None:
    """A weak reference brings nothing in by itself."""
    write(folder, weak_c=WEAK)
    for words in ("", "-Wl,-s", "-Wl,--gc-sections"):
        compiler.c(folder, ["weak.c"], "weak", "-fno-builtin", *words.split())
        expect(run(["./weak", "a"], folder).returncode, 0, words)


def check_late(suite: Suite, folder: str, compiler: Compiler) -> None:
    """A library that the compiler puts behind the recorder calls what nothing else does. The link that fails by that is
    no matter of the user's; what another one says is said once."""
    write(folder, late_c=LATE, main_c=CALLS_LATE, late_specs=f"*lib:\n+ {folder}/late.o\n\n",
          lacks_c="int nothing_has_this(void);\n#warning so\nint main(void) { return nothing_has_this(); }\n",
          warns_c="#warning so\n" + CALLS_LATE)
    compiler.c(folder, ["-c", "late.c"], "late.o", "-fno-builtin", native=True)
    for source, status, counts in (("main", 0, (0, 0)), ("warns", 0, (1, 0)), ("lacks", 1, (1, 1))):
        ran = run([CC, f"{source}.c", "-o", source, "-specs=late.specs"], folder, ASANCOL_CC=compiler.name)
        found = tuple(map(ran.stderr.count, (b"warning: #warning so", b"undefined reference to `nothing_has_this'")))
        expect((ran.returncode, found, counts == (0, 0) and ran.stderr), (status, counts, counts == (0, 0) and b""),
               source)
    expect(run(["./main", "a b"], folder).returncode, 0, "status")


def check_links(suite: Suite, folder: str, compiler: Compiler) -> None:
    """A link of objects runs the compiler once, and asks it nothing before. If the library for another processor is
    there, a script is asked for its own."""
    write(folder, calls_c=CALLS, opens_c=OPENS, weak_c=WEAK)
    write(folder, counts_sh=f'#!/bin/sh\necho "$*" >> {folder}/runs\nexec {compiler.name} "$@"\n')
    os.chmod(f"{folder}/counts.sh", 0o755)
    for name, wanted in (("calls", 1), ("opens", 1), ("weak", 2)):
        compiler.c(folder, ["-c", f"{name}.c"], f"{name}.o", "-fno-builtin")
        build([CC, f"{name}.o", "-o", name], folder, ASANCOL_CC=f"{folder}/counts.sh")
        with open(f"{folder}/runs", encoding="utf-8") as file:
            expect(len([it for it in file if it != "-dumpmachine\n"]), wanted, name)
        os.unlink(f"{folder}/runs")


def check_preloaded(suite: Suite, folder: str, compiler: Compiler) -> None:
    """The calls of a library of which the link knew nothing are checked if the program has all of them, or it is
    said."""
    write(folder, small_c=SMALLEST, opens_c=OPENS, library_c=LIBRARY)
    compiler.c(folder, ["library.c"], "library.so", "-fPIC", "-shared", "-fno-builtin", native=True)
    said = "calls by libraries (none known at link time)"
    for source, faults, lines in (("small.c", 0, [said]), ("opens.c", 1, [])):
        compiler.c(folder, [source], "program")
        run(["./program"], folder, ASANCOL_TRACE="t.trace", ASANCOL_WHERE="1", LD_PRELOAD="./library.so")
        expect(len(reports(suite.asancol, f"{folder}/t.trace")[1]), faults, source)
        found = side_of(f"{folder}/t.trace").unchecked()
        expect([it for it in found if it.startswith("calls")], lines, source)
        os.unlink(f"{folder}/t.trace")


def tests(suite: Suite, compiler: Compiler) -> None:
    suite.test(f"{compiler} members: size", check_size, compiler)
    suite.test(f"{compiler} members: memory", check_memory, compiler)
    suite.test(f"{compiler} members: groups", check_groups, compiler)
    suite.test(f"{compiler} members: weak", check_weak, compiler)
    if compiler.name == "gcc":  # it reads specs
        suite.test(f"{compiler} members: late", check_late, compiler)
    suite.test(f"{compiler} members: links", check_links, compiler)
    suite.test(f"{compiler} members: preloaded", check_preloaded, compiler)
