"""Tests that nothing is called clean which is incomplete: limits, builds that record nothing, settings that
are none, and programs that are sound without a recorder."""

import glob
import os
import re
import shutil
from typing import List, Sequence

from lives import every_of
from support import (
    CC, HELPER, MARK, PAST_THE_END, RECORDER, TESTS, Compiler, Failure, Suite, Trace, build, expect, limited, noted,
    one_mark, reports, run, write,
)
from testing import NO_SETTINGS, traces

# A free of null: the event that is one too many.
FREE = 4
ONE_TOO_MANY = (FREE, 0, 0)

NOT_SEEN = b"no access was recorded"


def lines_of(text: bytes) -> List[str]:
    return text.decode().splitlines()


# The event limit.


def expect_cut(suite: Suite, path: str, limit: int) -> None:
    """A trace with one event more than its limit, and no close, whatever limit its reader has."""
    trace = Trace(path)
    expect((len(trace.events), trace.is_closed), (limit + 1, False), path)
    expect(trace.events[-1], ONE_TOO_MANY, "the event that is one too many")
    for option, fate in (([f"--limit={limit}"], "too-many"), (["--limit=10"], "too-many"), ([], "no-close")):
        status, _, end = reports(suite.asancol, path, option)
        expect((status, end.split(" events ")[0]), (3, fate), f"{path} {option}")


def check_limit(suite: Suite, folder: str, program: str) -> None:
    ran = run([program, "many_events"], folder, ASANCOL_TRACE="t.trace", **limited(50000))
    expect(ran.returncode, 0, "status of the program")
    expect_cut(suite, f"{folder}/t.trace", 50000)
    whole = run([program, "many_events"], folder, ASANCOL_TRACE="whole.trace")
    events = len(Trace(f"{folder}/whole.trace").events)
    said = lines_of(ran.stderr)
    expect((len(said), said[0].split(": ")[0], said[0].split(": ")[-1]), (1, "asancol", str(events - 50000)), "said")
    expect(whole.stderr, b"", "standard error without a limit")
    # One event fewer, and all of them.
    less, exact = f"{folder}/less.trace", f"{folder}/exact.trace"
    ran = run([program, "many_events"], folder, ASANCOL_TRACE=less, **limited(events - 1))
    expect(len(lines_of(ran.stderr)), 1, ran.stderr)
    expect_cut(suite, less, events - 1)
    ran = run([program, "many_events"], folder, ASANCOL_TRACE=exact, ASANCOL_LIMIT=str(events))
    expect((ran.stderr, Trace(exact).is_closed), (b"", True), "with room for all")


def check_limit_in_threads(suite: Suite, folder: str, program: str) -> None:
    """The limit is just after what a file has at first, where some threads are waiting for more."""
    for limit in (104856, 104857, 104858, 104870, 105300):
        name = f"{limit}.trace"
        ran = run([program, "many_events_in_threads"], folder, ASANCOL_TRACE=name, **limited(limit))
        expect((ran.returncode, len(lines_of(ran.stderr))), (0, 1), name)
        expect_cut(suite, f"{folder}/{name}", limit)


def check_exec_after_limit(suite: Suite, folder: str, program: str) -> None:
    ran = run([program, "execs_after_much"], folder, ASANCOL_TRACE="t.trace", **limited(100))
    expect((ran.returncode, len(lines_of(ran.stderr))), (0, 1), ran.stderr)
    expect_cut(suite, f"{folder}/t.trace", 100)


def check_greatest_limit(suite: Suite, folder: str, program: str) -> None:
    """More events than any trace may have: `too-many`, with what came before."""
    ran = run([program, "twenty_million_events"], folder, ASANCOL_TRACE="t.trace", **limited(1 << 24))
    expect((ran.returncode, len(lines_of(ran.stderr))), (0, 1), ran.stderr)
    checked = run([suite.asancol, "check", "t.trace"], folder)
    said = lines_of(checked.stdout)
    expect((checked.returncode, len(said)), (3, 2), said)
    expect(said[-1].split(" offset ")[0], "p0 end too-many events 16777216", "its end")
    expect(os.listdir(folder), ["t.trace"], "files")


def check_no_room_at_the_limit(suite: Suite, folder: str, program: str) -> None:
    """The records up to the limit fill the file as far as it may grow: `no-close`."""
    argv = ["sh", "-c", f"ulimit -f 2048; exec {program} many_events_in_threads"]
    ran = run(argv, folder, ASANCOL_TRACE="t.trace", **limited(209714))
    expect(ran.returncode, 0, ran.stderr)
    expect(len(lines_of(ran.stderr)) >= 1, True, "that it says so")
    status, _, end = reports(suite.asancol, f"{folder}/t.trace")
    expect((status, end.split(" events ")[0]), (3, "no-close"), "its end")


def limit_tests(suite: Suite, compiler: Compiler, program: str) -> None:
    suite.test(f"{compiler} limit of events", check_limit, program)
    suite.test(f"{compiler} limit in threads", check_limit_in_threads, program)
    suite.test(f"{compiler} exec after the limit", check_exec_after_limit, program)
    suite.test(f"{compiler} greatest limit", check_greatest_limit, program)
    suite.test(f"{compiler} no room at the limit", check_no_room_at_the_limit, program)


# Builds that record nothing, or not all.


def warned(folder: str, compiler: Compiler, *argv: str) -> List[str]:
    """The warnings of a build that succeeds."""
    made = run([CC, *argv], folder, ASANCOL_CC=compiler.name)
    expect(made.returncode, 0, f"{argv}: {made.stderr.decode()}")
    return lines_of(made.stderr)


def expect_warnings(said: Sequence[str], *wanted: str) -> None:
    expect(len(said), len(wanted), f"warnings {said}")
    for line, piece in zip(said, wanted):
        if not line.startswith("asancol-cc: warning: ") or piece not in line:
            raise Failure(f"warned {line!r}, wanted {piece!r}")


def expect_noted(folder: str, *wanted: str) -> None:
    """The note of a program that was compiled otherwise."""
    expect(noted(f"{folder}/program"), list(wanted), "what was noted")


def expect_unseen(suite: Suite, folder: str, program: str = "./program") -> None:
    """A program without a check runs, says that nothing was seen of it, and its trace does not read as clean."""
    ran = run([program], folder, ASANCOL_TRACE="u.trace")
    expect((ran.returncode, len(lines_of(ran.stderr))), (0, 1), ran.stderr)
    expect(NOT_SEEN in ran.stderr, True, ran.stderr)
    status, texts, end = reports(suite.asancol, f"{folder}/u.trace")
    expect((status, texts, end.split(" events ")[0]), (3, [], "no-close"), "its trace")
    os.unlink(f"{folder}/u.trace")
    expect(run([program], folder).stderr, b"", "what it says where nothing is recorded")


def check_link_time(suite: Suite, folder: str, compiler: Compiler) -> None:
    """-flto, in one step and in two, with an archive too."""
    linkers = [["-fuse-ld=lld"]] if shutil.which("ld.lld") else []
    linkers += [[]] if compiler.name == "gcc" else []
    write(folder, main_c=PAST_THE_END, helper_c=HELPER)
    for linker in linkers if compiler.name == "clang" else [[]]:
        flags = ["-O2", "-flto", "-DVALUE=1"]
        expect_warnings(warned(folder, compiler, *flags, *linker, "main.c", "helper.c", "-o", "program"))
        one_mark(suite, folder)
        expect_warnings(warned(folder, compiler, *flags, "-c", "main.c", "helper.c"))
        expect_warnings(warned(folder, compiler, "-O2", "-flto", *linker, "main.o", "helper.o", "-o", "program"))
        one_mark(suite, folder)
        archiver = "gcc-ar" if compiler.name == "gcc" else "llvm-ar"
        if shutil.which(archiver):
            build([archiver, "rcs", "libhelper.a", "helper.o"], folder)
            expect_warnings(warned(folder, compiler, "-flto", *linker, "main.o", "libhelper.a", "-o", "program"))
            one_mark(suite, folder)


def check_foreign_link_time(suite: Suite, folder: str, compiler: Compiler) -> None:
    """Objects that GCC made with -flto are compiled when they are linked, and that with settings of their own."""
    write(folder, main_c=PAST_THE_END, helper_c=HELPER)
    build([compiler.name, "-O2", "-flto", "-DVALUE=1", "-c", "main.c", "helper.c"], folder)
    said = warned(folder, compiler, "-O2", "-flto", "main.o", "helper.o", "-o", "program")
    expect_warnings(said)
    expect_noted(folder, "main.o", "helper.o")
    expect_unseen(suite, folder)
    build([CC, "-O2", "-flto", "-c", "main.c"], folder, ASANCOL_CC=compiler.name)
    # Checks that are turned off at the link alone.
    flags = ["-flto", "-fno-sanitize=all", "-DVALUE=1"]
    said = warned(folder, compiler, *flags, "main.o", "-x", "c", "helper.c", "-o", "program")
    expect_warnings(said, "-fno-sanitize=all")
    expect_unseen(suite, folder)
    made = run([CC, "-O2", "-flto", "main.o", "helper.o", "-o", "program"], folder, ASANCOL_CC=compiler.name)
    expect((made.returncode, b"error: helper.o: " in made.stderr), (1, True), made.stderr)


def check_refusals(suite: Suite, folder: str, compiler: Compiler) -> None:
    """Flags by which a compiler puts no calls before accesses."""
    write(folder, main_c=PAST_THE_END, helper_c=HELPER)
    for flag in ("-fno-sanitize=all", "-fno-sanitize=address", "-fno-sanitize=undefined,kernel-address"):
        expect_warnings(warned(folder, compiler, flag, "-DVALUE=1", "main.c", "helper.c", "-o", "program"), flag)
        expect_noted(folder, "main.c", "helper.c")
        expect_unseen(suite, folder)
        expect_warnings(warned(folder, compiler, flag, "-DVALUE=1", "-c", "helper.c"), flag)
        expect_warnings(warned(folder, compiler, "-c", "main.c"))
        expect_warnings(warned(folder, compiler, "main.o", "helper.o", "-o", "program"))
        expect_noted(folder, "helper.o")
    for flag in ("-fsanitize=thread", "-m32"):
        expect_warnings(warned(folder, compiler, flag, "-DVALUE=1", "-S", "helper.c", "-o", "helper.s"), flag)
        expect("_report_" in open(f"{folder}/helper.s").read(), False, flag)


def check_plain_objects(suite: Suite, folder: str, compiler: Compiler) -> None:
    """Objects that the plain compiler made, all of them and some."""
    write(folder, main_c=PAST_THE_END, helper_c=HELPER, code_s='ret\n.section .note.GNU-stack,"",@progbits\n')
    names = [f"n{i}" for i in range(6)]
    write(folder, **{f"{name}_c": f"int {name};\n" for name in names})
    build([compiler.name, "-DVALUE=1", "-c", "main.c", "helper.c", *(f"{name}.c" for name in names)], folder)
    for flags in ((), ["-no-pie"]):
        expect_warnings(warned(folder, compiler, *flags, "main.o", "helper.o", "-o", "program"))
        expect_noted(folder, "main.o", "helper.o")
        expect_unseen(suite, folder)
    expect_warnings(warned(folder, compiler, "-static", "main.o", "helper.o", "-o", "program"))
    expect_noted(folder, "main.o", "helper.o", NO_CALLS)
    expect_unseen(suite, folder)
    objects = [f"{name}.o" for name in names]
    expect_warnings(warned(folder, compiler, "-DVALUE=1", "main.c", "helper.c", *objects, "-o", "program"))
    expect_noted(folder, *objects)
    one_mark(suite, folder)
    # Assembled code is not recorded either.
    expect_warnings(warned(folder, compiler, "-c", "code.s"))
    expect_warnings(warned(folder, compiler, "-DVALUE=1", "main.c", "helper.c", "code.o", "-o", "program"))
    expect_noted(folder, "code.o")
    # A shared object, or a member of an archive, is enough for a program to be seen.
    expect_warnings(warned(folder, compiler, "-fPIC", "-DVALUE=1", "-c", "helper.c"))
    expect_warnings(warned(folder, compiler, "-shared", "helper.o", "-o", "libhelper.so"))
    expect_warnings(warned(folder, compiler, "main.o", "./libhelper.so", "-o", "program"))
    expect_noted(folder, "main.o")
    one_mark(suite, folder)
    build(["ar", "rcs", "libhelper.a", "helper.o"], folder)
    expect_warnings(warned(folder, compiler, "main.o", "libhelper.a", "-o", "program"))
    expect_noted(folder, "main.o")
    one_mark(suite, folder)


def check_quoted_switches(suite: Suite, folder: str, compiler: Compiler) -> None:
    """Plain objects in which the wrapper's mark stands, but is no word of the noted switches."""
    mark = "-fsanitize=kernel-address"
    write(folder, main_c=PAST_THE_END, helper_c=HELPER, text_c=f'const char *text(void) {{ return "{mark}"; }}\n')
    forms = [[f'-DX="{mark}"'], [f'-DX="a {mark} b"'], [f'-DX=\\ {mark} '], [f"-DX={mark}{mark}"], [f"-DX={mark}s"]]
    kinds = [["helper.o"], ["-emit-llvm", "helper.bc"]] if compiler.name == "clang" else [["helper.o"]]
    for form in forms:
        for *kind, name in kinds:
            noting = [compiler.name, "-g", "-frecord-gcc-switches", "-DVALUE=1", *form, *kind]
            build([*noting, "-c", "helper.c", "-o", name], folder)
            expect_warnings(warned(folder, compiler, "main.c", name, "-o", "program"))
            expect_noted(folder, name)
    build([compiler.name, "-g", "-frecord-gcc-switches", "-c", "main.c", "text.c"], folder)
    build([compiler.name, "-DVALUE=1", "-c", "helper.c"], folder)
    expect_warnings(warned(folder, compiler, "main.o", "helper.o", "text.o", "-o", "program"))
    expect_noted(folder, "main.o", "helper.o", "text.o")
    expect_unseen(suite, folder)


def check_spellings(suite: Suite, folder: str, compiler: Compiler) -> None:
    """Objects and assembly by other names and other ways to name them."""
    write(folder, main_c=PAST_THE_END, helper_c=HELPER)
    plain = [compiler.name, "-DVALUE=1"]
    build([*plain, "-c", "helper.c", "-o", "helper.os"], folder)
    build([*plain, "-S", "helper.c", "-o", "helper.txt"], folder)
    build([*plain, "-S", "helper.c", "-o", "helper.s"], folder)
    assembly = ["-x", "assembler", "helper.txt"]
    for argv in (["helper.os"], ["-Wl,helper.os"], ["-Xlinker", "helper.os"], assembly, ["helper.s"]):
        expect_warnings(warned(folder, compiler, "main.c", *argv, "-o", "program"))
        expect_noted(folder, argv[-1].replace("-Wl,", ""))
    if compiler.name == "clang":
        build([*plain, "-emit-llvm", "-c", "helper.c", "-o", "helper.bc"], folder)
        expect_warnings(warned(folder, compiler, "main.c", "helper.bc", "-o", "program"))
        expect_noted(folder, "helper.bc")
    # Nothing compiled, though an empty object or the name of the output is there.
    write(folder, empty_c="int unused;\n")
    build([compiler.name, "-c", "main.c"], folder)
    expect_warnings(warned(folder, compiler, "-c", "empty.c"))
    build(["ar", "rcs", "libempty.a", "empty.o"], folder)
    for argv in (["libempty.a", "-o", "program"], ["--output", "program"]):
        expect_warnings(warned(folder, compiler, "main.o", "helper.os", *argv))
        expect_noted(folder, "main.o", "helper.os")
        expect_unseen(suite, folder)
    # There is no warning about other files, and no flag hides a compiled one.
    flags = ["-fno-record-gcc-switches", "-DVALUE=1"]
    expect_warnings(warned(folder, compiler, *flags, "-c", "main.c", "helper.c"))
    libm = run([compiler.name, "-print-file-name=libm.so.6"], folder).stdout.decode().strip()
    for argv in ([libm], ["-nodefaultlibs", "-lgcc", "-lc"]):
        expect_warnings(warned(folder, compiler, "main.o", "helper.o", *argv, "-o", "program"))
        one_mark(suite, folder)


COPY = """
#include <stdlib.h>
#include <string.h>
int main(void) { char *p = malloc(8); memcpy(p, "12345678", (size_t)atoi("9")); free(p); return 0; }
"""
NO_CALLS = "calls to the C library (-static)"


def check_static(suite: Suite, folder: str, compiler: Compiler) -> None:
    """With the C library inside, calls of it are not recorded, and the program says so: a bad memcpy is missed."""
    write(folder, copy_c=COPY, main_c=PAST_THE_END, helper_c=HELPER)
    both = ["-DVALUE=1", "main.c", "helper.c"]
    for argv in (["-static"], ["-static-pie"], ["--static"], ["-no-pie", "-Wl,-Bstatic", "-static-libgcc"]):
        expect_warnings(warned(folder, compiler, *both, *argv, "-o", "program"))
        expect_noted(folder, NO_CALLS)
        one_mark(suite, folder)
    expect_warnings(warned(folder, compiler, "-static", "-c", "main.c"))
    expect_warnings(warned(folder, compiler, *both, "-Wl,-Bstatic", "-Wl,-Bdynamic", "-o", "program"))
    for flags, wanted in (((), 1), (["-static"], 0)):
        warned(folder, compiler, *flags, "-fno-builtin", "copy.c", "-o", "program")
        expect(run(["./program"], folder, ASANCOL_TRACE="t.trace").returncode, 0, flags)
        expect(reports(suite.asancol, f"{folder}/t.trace")[0], wanted, flags)
        os.unlink(f"{folder}/t.trace")


def check_nothing_to_see(suite: Suite, folder: str, compiler: Compiler) -> None:
    """A program that makes no access was complete, if it was compiled for it."""
    write(folder, empty_c="int main(void) { return 0; }\n")
    expect_warnings(warned(folder, compiler, "-c", "empty.c"))
    for argv in (["empty.c"], ["empty.o"], ["-static", "empty.o"], ["-O2", "-flto", "empty.c"]):
        if "-flto" in argv and compiler.name == "clang":
            continue
        expect_warnings(warned(folder, compiler, *argv, "-o", "program"))
        expect_noted(folder, *[NO_CALLS] * ("-static" in argv))
        ran = run(["./program"], folder, ASANCOL_TRACE="t.trace")
        expect((ran.returncode, ran.stderr), (0, b""), argv)
        expect(reports(suite.asancol, f"{folder}/t.trace")[0], 0, argv)
        os.unlink(f"{folder}/t.trace")


PLUGIN = """
#include <dlfcn.h>
#include <stdlib.h>
int main(void) {
    char *p = malloc(8);
    void *library = dlopen("./libhelper.so", RTLD_NOW);
    int (*helper)(char *) = library ? (int (*)(char *))dlsym(library, "helper") : NULL;
    int result = helper ? helper(p) : 9;
    free(p);
    return result; }
"""


def check_plugins(suite: Suite, folder: str, compiler: Compiler) -> None:
    """A shared object that is opened later is seen, whoever has linked it."""
    write(folder, plugin_c=PLUGIN, helper_c=HELPER)
    build([compiler.name, "-c", "plugin.c"], folder)
    warned(folder, compiler, "plugin.o", "-ldl", "-o", "program")
    warned(folder, compiler, "-fPIC", "-DVALUE=1", "-c", "helper.c")
    for linker in ([CC], [compiler.name]):
        build([*linker, "-shared", "helper.o", "-o", "libhelper.so"], folder, ASANCOL_CC=compiler.name)
        one_mark(suite, folder)
    # Of one that was linked by the wrapper no name of the program has to be visible.
    build([CC, "-shared", "helper.o", "-o", "libhelper.so"], folder, ASANCOL_CC=compiler.name)
    write(folder, none_map="{ local: *; };\n")
    for flag in ("-Wl,--version-script=none.map", "-Wl,--exclude-libs,ALL", "-ffreestanding"):
        warned(folder, compiler, flag, "plugin.c", "-ldl", "-o", "program")
        one_mark(suite, folder)


def seen_tests(suite: Suite, compiler: Compiler) -> None:
    suite.test(f"{compiler} link time", check_link_time, compiler)
    if compiler.name == "gcc":
        suite.test(f"{compiler} link time of others", check_foreign_link_time, compiler)
    suite.test(f"{compiler} refusals", check_refusals, compiler)
    suite.test(f"{compiler} plain objects", check_plain_objects, compiler)
    suite.test(f"{compiler} spellings", check_spellings, compiler)
    suite.test(f"{compiler} quoted switches", check_quoted_switches, compiler)
    suite.test(f"{compiler} linked with -static", check_static, compiler)
    suite.test(f"{compiler} nothing to see", check_nothing_to_see, compiler)
    suite.test(f"{compiler} plugins", check_plugins, compiler)


# Programs that are sound without a recorder.


def check_allocation(suite: Suite, folder: str, compiler: Compiler, flags: Sequence[str]) -> None:
    """All of the C library's interface, recorded and not."""
    compiler.c(folder, [f"{TESTS}/allocation.c"], f"{folder}/program", "-w", *flags)
    for settings in (NO_SETTINGS, {"ASANCOL_TRACE": "t.trace"}):
        ran = run(["./program"], folder, **settings)
        expect((ran.returncode, ran.stderr), (0, b""), settings)
    status, texts, end = reports(suite.asancol, f"{folder}/t.trace")
    expect((status, texts, end.split()[0]), (0, [], "closed"), "its trace")


HOOKS = re.compile(r"^void (__sanitizer_syscall_\w+)\(", re.M)


def check_asked_for(suite: Suite, folder: str, compiler: Compiler) -> None:
    """The hooks of calls of the system, and the other names of wrapped functions: each is there, and can be called."""
    header = "#include <sanitizer/linux_syscall_hooks.h>\n"
    write(folder, asked_c=f"#if __has_include(<sanitizer/linux_syscall_hooks.h>)\n{header}#endif\n")
    hooks = HOOKS.findall(run([compiler.name, "-E", "asked.c"], folder).stdout.decode())
    expect(len(hooks) > 600 or compiler.name == "gcc", True, "hooks")
    with open(f"{RECORDER}/out/calls.list", encoding="utf-8") as file:
        others = [f"__interceptor_{name}" for name in re.findall(r"WRAP\((\w+)\)", file.read())]
    allocator = [f"__interceptor_{name}" for name in ("malloc", "calloc", "realloc", "memalign", "free")]
    for names, flags in ((hooks + others + allocator, ()), (hooks + allocator, ["-static"])):
        seven = ", ".join(["long"] * 7)
        text = "".join(f"void {name}({seven if name in hooks else 'void'});\n" for name in names)
        table = ", ".join(f"(void (*)(void)){it}" for it in sorted(set(names)))
        calls = "".join(f"    {name}(0, 0, 0, 0, 0, 0, 0);\n" for name in hooks)
        text += f"void (*const all[])(void) = {{{table}}};\n"
        text += "int main(void)\n{\n    for (unsigned i = 0; i < sizeof all / sizeof *all; i++)\n"
        text += f"        if (all[i] == 0)\n            return 1;\n{calls}    return 0;\n}}\n"
        write(folder, asked_c=text, asked_cpp=f'extern "C" {{\n{text}}}\n')
        compiler.c(folder, ["asked.c"], "asked", "-w", *flags)
        expect(run(["./asked"], folder, ASANCOL_TRACE="/dev/null").returncode, 0, f"{flags}")
        if not flags:
            compiler.cpp(folder, ["asked.cpp"], "asked", "-w")
            expect(run(["./asked"], folder).returncode, 0, "C++")
    write(folder, other_c=OTHER_NAMES)
    compiler.c(folder, ["other.c"], "other")
    run(["./other"], folder, ASANCOL_TRACE="other.trace")
    expect(reports(suite.asancol, f"{folder}/other.trace")[1], ["load 8 +0 bad +6 heap-buffer-overflow"],
           "what is checked")
    write(folder, past_c=PAST_ITS_OWN)
    for flags in (["-O2"], ["-O0", "-no-pie", "-fno-pie"]):
        compiler.c(folder, ["past.c"], "past", "-fno-builtin", *flags)
        expect(run(["./past"], folder, ASANCOL_TRACE="past.trace").returncode, 0, "a program with its own functions")
        expect(reports(suite.asancol, f"{folder}/past.trace")[1], ["store 1 +6 heap-buffer-overflow"], "its block")
        expect(run(["./past"], folder).returncode, 0, "likewise, if nothing is recorded")
        os.unlink(f"{folder}/past.trace")


OTHER_NAMES = """
#include <stddef.h>
void *__interceptor_malloc(size_t);
void __interceptor_free(void *);
void *__interceptor_memcpy(void *, const void *, size_t);
int main(void)
{
    char copy[8], *block = __interceptor_malloc(6);
    __interceptor_memcpy(copy, block, 8);
    __interceptor_free(block);
    return 0;
}
"""

PAST_ITS_OWN = """
#include <stddef.h>
long strtol(const char *, char **, int), __interceptor_strtol(const char *, char **, int);
void *malloc(size_t), *__interceptor_malloc(size_t);
static int numbers, blocks;
long strtol(const char *text, char **end, int base)
{
    numbers++;
    return __interceptor_strtol(text, end, base);
}
void *malloc(size_t size)
{
    blocks++;
    return __interceptor_malloc(size);
}
int main(void)
{
    blocks = 0;
    volatile char *block = malloc(6);
    block[6] = 1;
    return strtol("12", NULL, 10) != 12 || numbers != 1 || blocks != 1;
}
"""

SECOND = """
#include <stdlib.h>
void __malloc_fork_lock_parent(void);
int main(void) { free(malloc(8)); __malloc_fork_lock_parent(); return 0; }
"""


def check_second_allocator(suite: Suite, folder: str, compiler: Compiler) -> None:
    """A static program into which the C library's allocator comes is not linked."""
    write(folder, second_c=SECOND)
    for linker, program in (("bfd", "ld.bfd"), ("gold", "ld.gold"), ("lld", "ld.lld")):
        if not shutil.which(program):
            continue
        argv = [CC, "-w", "-static", f"-fuse-ld={linker}", "second.c", "-o", "program"]
        made = run(argv, folder, ASANCOL_CC=compiler.name)
        said = [line for line in lines_of(made.stderr) if "asancol-cc: the C library's allocator (malloc.o" in line]
        expect((made.returncode != 0, len(said) >= 1), (True, True), f"{linker}: {made.stderr.decode()}")


HEADERS = (
    "allocator_interface.h",
    "asan_interface.h",
    "common_interface_defs.h",
    "coverage_interface.h",
    "lsan_interface.h",
)
DECLARED = re.compile(r"\b(__(?:asan|lsan|sanitizer)_\w+) *\(")


def declared(folder: str, compiler: Compiler) -> List[str]:
    """The functions of the headers as they are installed. Each compiler has some of these."""
    parts = [f"#if __has_include(<sanitizer/{it}>)\n#include <sanitizer/{it}>\n#endif\n" for it in HEADERS]
    write(folder, all_c="".join(parts))
    return sorted(set(DECLARED.findall(run([compiler.name, "-E", "all.c"], folder).stdout.decode())))


def check_interface(suite: Suite, folder: str, compiler: Compiler) -> None:
    source = f"{TESTS}/interface.c"
    with open(source, encoding="utf-8") as file:
        called = set(DECLARED.findall(file.read()))
    names = declared(folder, compiler)
    expect(len(names) > 60, True, "functions of the headers")
    expect([name for name in names if name not in called], [], "functions that interface.c does not call")
    for flags in (["-O0"], ["-O2"], ["-static"]):
        compiler.c(folder, [source], f"{folder}/program", "-w", *flags)
        for settings in (NO_SETTINGS, {"ASANCOL_TRACE": "t.trace"}):
            ran = run(["./program"], folder, **settings)
            expect((ran.returncode, ran.stderr, ran.stdout), (0, b"", b""), flags)
        expect(reports(suite.asancol, f"{folder}/t.trace")[:2], (0, []), flags)
        os.unlink(f"{folder}/t.trace")
    # In a shared object, which is used with and without a recorder.
    write(folder, main_c="int interface(void);\nint main(void) { return interface(); }\n")
    shared = ["-fPIC", "-shared", "-DIN_LIBRARY", "-Wl,-z,defs"]
    compiler.c(folder, [source], f"{folder}/libinterface.so", "-w", *shared)
    compiler.c(folder, ["main.c", "./libinterface.so"], f"{folder}/program")
    compiler.c(folder, ["main.c", "./libinterface.so"], f"{folder}/plain", native=True)
    for program in ("./program", "./plain"):
        ran = run([program], folder, ASANCOL_TRACE="t.trace")
        expect((ran.returncode, ran.stderr), (0, b""), program)


KEPT = """
#include <stdlib.h>
static void *volatile kept;
static int is_kept;
int __sanitizer_ignore_free_hook(const volatile void *start) { return is_kept && start == kept; }
int main(void)
{
    char *block = kept = malloc(8);
    is_kept = 1;
    free(block);
    ((volatile char *)block)[7] = 1;
    is_kept = 0;
    free(block);
    ((volatile char *)block)[7] = 1;
    return 0;
}
"""


def check_kept_blocks(suite: Suite, folder: str, compiler: Compiler) -> None:
    """A program may say that a free does not count."""
    write(folder, kept_c=KEPT)
    for flags in ((), ["-static"]):
        compiler.c(folder, ["kept.c"], f"{folder}/kept", "-w", *flags)
        ran = run(["./kept"], folder, ASANCOL_TRACE="t.trace")
        expect((ran.returncode, ran.stderr), (0, b""), "the program")
        expect(reports(suite.asancol, f"{folder}/t.trace")[1], ["store 1 +7 heap-use-after-free"], f"{flags}")
        os.unlink(f"{folder}/t.trace")


# Five hooks, which as many threads add at once: in each of these children.
ADDS_HOOKS = """
#include <pthread.h>
#include <sched.h>
#include <stdatomic.h>
#include <stdlib.h>
#include <sys/wait.h>
#include <unistd.h>
enum { HOOKS = 5, CHILDREN = 200, SIZE = 77 };
int __sanitizer_install_malloc_and_free_hooks(void (*)(const volatile void *, size_t), void (*)(const volatile void *));
static atomic_int to_come, called[HOOKS], answers[HOOKS + 1];
#define HOOK(n) static void hook_##n(const volatile void *start, size_t size) { called[n] += size == SIZE; }
HOOK(0) HOOK(1) HOOK(2) HOOK(3) HOOK(4)
static void (*const hooks[])(const volatile void *, size_t) = {hook_0, hook_1, hook_2, hook_3, hook_4};
static void *add(void *hook)
{
    to_come--;
    while (to_come != 0) sched_yield();
    answers[__sanitizer_install_malloc_and_free_hooks(*(void (**)(const volatile void *, size_t))hook, NULL)]++;
    return NULL;
}
static int add_at_once(void)
{
    pthread_t threads[HOOKS];
    to_come = HOOKS;
    for (int i = 0; i < HOOKS; i++) pthread_create(&threads[i], NULL, add, (void *)&hooks[i]);
    for (int i = 0; i < HOOKS; i++) pthread_join(threads[i], NULL);
    if (__sanitizer_install_malloc_and_free_hooks(hook_0, NULL) != 0) return 1;
    void *volatile block = malloc(SIZE);
    free(block);
    for (int i = 0; i < HOOKS; i++)
        if (called[i] != 1 || answers[i + 1] != 1) return 1;
    return 0;
}
int main(void)
{
    for (int i = 0; i < CHILDREN; i++) {
        int status = -1;
        pid_t child = fork();
        if (child == 0) _exit(add_at_once());
        if (waitpid(child, &status, 0) != child || status != 0) return 1;
    }
    return 0;
}
"""


def check_hooks_at_once(suite: Suite, folder: str, compiler: Compiler) -> None:
    """None of them is lost, each has another number, and a sixth one is refused."""
    write(folder, hooks_c=ADDS_HOOKS)
    compiler.c(folder, ["hooks.c"], f"{folder}/hooks", "-w", "-O1", "-pthread")
    ran = run(["./hooks"], folder)
    expect((ran.returncode, ran.stderr), (0, b""), "the program")


def check_told(suite: Suite, folder: str, compiler: Compiler, argv: Sequence[str]) -> None:
    """What a program is told of reports, and learns of addresses, is what AddressSanitizer says."""
    flags = ["-w", "-g", "-O0", "-fno-builtin"]
    compiler.c(folder, [f"{TESTS}/told.c"], f"{folder}/told", *flags)
    compiler.c(folder, [f"{TESTS}/told.c"], f"{folder}/sanitized", *flags, "-fsanitize=address",
               "-fsanitize-recover=address", native=True)
    said = run(["./sanitized", *argv], folder, ASAN_OPTIONS="detect_leaks=0:halt_on_error=0").stdout
    ran = run(["./told", *argv], folder, ASANCOL_TRACE="t.trace", ASANCOL_WHERE="1")
    expect((ran.returncode, ran.stdout), (0, said), "what it prints")
    expect(b"callback: 1, " in said, True, said)
    lines = ran.stderr.decode().splitlines()
    wanted = [] if argv else [f"    #{it} 0x" for it in range(len(lines) - 1)]
    expect([it[:9] for it in lines if it], wanted, "a stack")
    if not argv:
        expect((" in __sanitizer_print_stack_trace (" in lines[0], f" ({folder}/told+0x" in lines[1]), (True, True),
               lines)


UNCALLED = """
#include <setjmp.h>
#include <signal.h>
#include <stdio.h>
#include <stdlib.h>
static int told;
static sigjmp_buf back;
static char room[64];
void __asan_on_error(void) { told++; }
static void on_fault(int number) { siglongjmp(back, 1); }
int main(void)
{
    signal(SIGSEGV, on_fault);
    for (volatile int i = 0; i < 3; i++)
        if (sigsetjmp(back, 1) == 0)
            __asm__ volatile("and $-16, %%rsp; push $0; jmp *%1" : : "D"(room + 16), "r"(free) : "memory");
    printf("%d", told);
    return 0;
}
"""


def check_told_uncalled(suite: Suite, folder: str, compiler: Compiler) -> None:
    """A report at a function that nothing has called is told once, too."""
    with open(f"{folder}/uncalled.c", "w", encoding="utf-8") as file:
        file.write(UNCALLED)
    compiler.c(folder, ["uncalled.c"], f"{folder}/uncalled", "-w", "-O0", "-fno-builtin")
    ran = run(["./uncalled"], folder, ASANCOL_TRACE="t.trace")
    expect((ran.returncode, ran.stdout), (0, b"1"), "what it prints")
    expect(len(reports(suite.asancol, f"{folder}/t.trace")[1]), 3, "reports")


GROWING = """
#include <stdlib.h>
#include <sanitizer/common_interface_defs.h>
enum { MOST = 8000 };
int main(int count, char **argv)
{
    char *block = malloc(MOST);
    __sanitizer_annotate_contiguous_container(block, block + MOST, block + MOST, block);
    for (int i = 0; i < MOST; i++)
        __sanitizer_annotate_contiguous_container(block, block + MOST, block + i, block + i + 1);
    for (int i = MOST; i > 13; i--)
        __sanitizer_annotate_contiguous_container(block, block + MOST, block + i, block + i - 1);
    int sum = ((volatile char *)block)[12];
    return (sum + ((volatile char *)block)[13]) & 0;
}
"""


def check_growing(suite: Suite, folder: str, compiler: Compiler) -> None:
    """A container that grows and shrinks by one byte has few bytes in each record, however large it is."""
    write(folder, growing_c=GROWING)
    compiler.c(folder, ["growing.c"], f"{folder}/growing", "-w")
    expect(run(["./growing"], folder, ASANCOL_TRACE="t.trace").returncode, 0, "status")
    status, found = reports(suite.asancol, f"{folder}/t.trace")[:2]
    expect((status, len(found)), (1, 1), "reports")
    with open(f"{folder}/t.trace", "rb") as file:
        events = traces.read(file.read()).events
    regions = [it.size for it in events if it.code in (traces.POISON, traces.UNPOISON)]
    expect(sum(regions) < 2 * 8000 * 16 + (2 << 20), True, "bytes of all records")


def sound_tests(suite: Suite, compiler: Compiler) -> None:
    for flags in (["-O0"], ["-O2"], ["-O0", "-static"], ["-O2", "-static"]):
        suite.test(f"{compiler} allocation {' '.join(flags)}", check_allocation, compiler, flags)
    suite.test(f"{compiler} second allocator", check_second_allocator, compiler)
    suite.test(f"{compiler} interface", check_interface, compiler)
    suite.test(f"{compiler} interface: kept blocks", check_kept_blocks, compiler)
    suite.test(f"{compiler} interface: hooks at once", check_hooks_at_once, compiler)
    if compiler.has_sanitizer:
        ways: List[List[str]] = [[], ["double"], ["bad"]]
        for argv in ways:
            suite.test(f"{compiler} interface: told of reports {' '.join(argv)}", check_told, compiler, argv)
    suite.test(f"{compiler} interface: told where nothing called", check_told_uncalled, compiler)
    suite.test(f"{compiler} growing container", check_growing, compiler)
    suite.test(f"{compiler} interface: hooks and other names", check_asked_for, compiler)


# Settings, and where the recorder's lines go.


def expect_said(said: Sequence[str], *pieces: str) -> None:
    expect(len(said), len(pieces), f"lines {said}")
    for line, piece in zip(said, pieces):
        if not line.startswith("asancol: ") or piece not in line:
            raise Failure(f"said {line!r}, wanted {piece!r}")


def check_settings(suite: Suite, folder: str, program: str) -> None:
    """An unknown setting, or an invalid value, is named once, and the program goes on."""
    for settings, pieces in (
        ({"ASANCOL_TRCE": "t.trace"}, ["ASANCOL_TRCE: unknown setting; did you mean ASANCOL_TRACE?"]),
        ({"ASANCOL_NOTHING_LIKE_IT": ""}, ["ASANCOL_NOTHING_LIKE_IT: unknown setting"]),
        ({"ASANCOL_": "1"}, ["ASANCOL_: unknown setting"]),
        ({"ASANCOL_WHERE": "yes"}, ["ASANCOL_WHERE: 'yes' is not a number (0 to 1), so 0 applies"]),
        ({"ASANCOL_LIMIT": "0"}, ["ASANCOL_LIMIT: '0' is not a number (1 to 16777216), so 16777216 applies"]),
        ({"ASANCOL_SEGMENTS": "1001"}, ["ASANCOL_SEGMENTS: '1001' is not a number (0 to 1000), so all are kept"]),
        ({"ASANCOL_LIMIT": "99999999999999999999"}, ["ASANCOL_LIMIT: '99999999999999999999' is not a number"]),
        ({"ASANCOL_QUARANTINE": "1M"}, ["ASANCOL_QUARANTINE: '1M' is not a number (0 to 1099511627776)"]),
        ({"ASANCOL_PATIENCE": "-1"}, ["ASANCOL_PATIENCE: '-1' is not a number (0 to 86400), so 60 applies"]),
        ({"ASANCOL_WHERE": "", "ASANCOL_LIMIT": "", "ASANCOL_LOG": ""}, ()),
        ({"ASANCOL_CC": "gcc", "ASANCOL_CXX": "g++", "ASANCOL_REPORT": "r", "ASANCOL_SYMBOLIZER": "addr2line"}, ()),
    ):
        ran = run([program, "ends_normally"], folder, **settings)
        expect(ran.returncode, 0, settings)
        expect_said(lines_of(ran.stderr), *pieces)
    expect(os.listdir(folder), [], "files")
    wrong = {"ASANCOL_LIMIT": "x", "ASANCOL_QUARANTINE": "x", "ASANCOL_X": "x"}
    ran = run([program, "ends_normally"], folder, ASANCOL_TRACE="t.trace", **wrong)
    expect_said(lines_of(ran.stderr), "ASANCOL_X", "ASANCOL_LIMIT", "ASANCOL_QUARANTINE")
    expect(reports(suite.asancol, f"{folder}/t.trace")[:2], (1, [MARK]), "its trace")


def check_log(suite: Suite, folder: str, program: str) -> None:
    """ASANCOL_LOG takes what the recorder says, line after line."""
    settings = {"ASANCOL_TRACE": "%p.trace", "ASANCOL_LOG": "log", **limited(100)}
    for _ in range(2):
        ran = run([program, "many_events"], folder, **settings)
        expect((ran.returncode, ran.stderr), (0, b""), "with a log")
    with open(f"{folder}/log", "rb") as file:
        expect_said(lines_of(file.read()), *["events beyond the limit are missing"] * 2)
    run([program, "many_events"], folder, **{**settings, "ASANCOL_LOG": "log.%p"})
    expect(len(glob.glob(f"{folder}/log.[0-9]*")), 1, "a log with the number of the process")
    ran = run([program, "many_events"], folder, **{**settings, "ASANCOL_LOG": "none/log"})
    expect_said(lines_of(ran.stderr), "the log can't be opened: ", "events beyond the limit are missing")


def check_other_folder(suite: Suite, folder: str, program: str) -> None:
    """A process that starts another one in another folder: both have their trace, and one log."""
    os.makedirs(f"{folder}/50%p/other")
    write(folder, chief_c='#include <stdlib.h>\nint main(void) { return system("cd other && exec $PROGRAM"); }\n')
    here = f"{folder}/50%p"
    build([CC, "chief.c", "-o", "chief"], folder, ASANCOL_CC="cc")
    settings = {"ASANCOL_TRACE": "%p.trace", "ASANCOL_LOG": "log", **limited(1)}
    ran = run(["../chief"], here, PROGRAM=f"{program} many_events", **settings)
    expect((ran.returncode, ran.stderr), (0, b""), "the program")
    expect(len(glob.glob(f"{glob.escape(here)}/*.trace")), 2, f"traces beside each other: {os.listdir(here)}")
    expect(os.listdir(f"{here}/other"), [], "what is in the other folder")
    with open(f"{here}/log", "rb") as file:
        expect(len(lines_of(file.read())) >= 1, True, "the log")


def check_one_pipe(suite: Suite, folder: str, program: str) -> None:
    """A pipe takes one process. Its forked child, and a program that it starts, say that they are not recorded."""
    for argv, lines in (([program, "forks"], 1), (["sh", "-c", f"{program} ends_normally"], 0)):
        text = " ".join(f"'{word}'" for word in argv)
        ran = run(["sh", "-c", f"ASANCOL_TRACE=/dev/fd/3 {text} 3>&1 >&2 | {suite.asancol}"], folder)
        expect(ran.stdout.decode().splitlines()[-1].split()[:3], ["p0", "end", "closed"], text)
        expect_said(lines_of(ran.stderr), *["another process writes into this pipe"] * lines)
    os.mkfifo(f"{folder}/fifo")
    ran = run([program, "ends_normally"], folder, ASANCOL_TRACE="fifo")
    expect_said(lines_of(ran.stderr), "nobody reads it yet")


def setting_tests(suite: Suite, compiler: Compiler, program: str) -> None:
    suite.test(f"{compiler} settings", check_settings, program)
    suite.test(f"{compiler} log", check_log, program)
    suite.test(f"{compiler} another folder", check_other_folder, program)
    suite.test(f"{compiler} one pipe", check_one_pipe, program)


def tests(suite: Suite, compiler: Compiler) -> None:
    every = every_of(suite, compiler)
    limit_tests(suite, compiler, every)
    seen_tests(suite, compiler)
    sound_tests(suite, compiler)
    setting_tests(suite, compiler, every)
