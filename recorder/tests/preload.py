"""The preloaded recorder: modules of asancol-cc in programs that it did not build."""

import glob
import os
import re
import signal
import subprocess
from typing import Dict, List, Optional, Sequence, Tuple

from support import (
    HELPER, PAST_THE_END, RECORDER, TESTS, Compiler, Failure, Suite, expect, leave_out, noted, placed, reports, run,
    side_of, write,
)

PRELOADED = f"{RECORDER}/libasancol_preload.so"

# How the host is linked: at a fixed place, with calls that wait for their first time; and anywhere, with all bound.
LINKS: Dict[str, Sequence[str]] = {
    "fixed": ["-no-pie", "-fno-pie", "-Wl,-z,lazy", "-Wl,-z,norelro"],
    "lazy": ["-pie", "-fPIE", "-Wl,-z,lazy", "-Wl,-z,relro"],
    "now": ["-pie", "-fPIE", "-Wl,-z,now", "-Wl,-z,relro"],
    "slots": ["-no-pie", "-fno-pie", "-fno-plt", "-Wl,-z,now", "-Wl,-z,relro"],
}

# What happens: the reports, as access, size, class, and function and file of the innermost line that is known.
OVER = ("load", "1", "heap-buffer-overflow", "act", "preload_module.c")
CASES: Dict[str, List[Tuple[str, str, str, str, str]]] = {
    "read": [],
    "over": [OVER],
    "stack": [("store", "1", "stack-buffer-overflow", "act", "preload_module.c")],
    "global": [("store", "1", "global-buffer-overflow", "act", "preload_module.c")],
    "own": [("store", "1", "heap-buffer-overflow", "act", "preload_module.c")],
    "module frees it": [],
    "host frees it": [],
    "module frees twice": [("free", "", "double-free", "act", "preload_module.c")],
    "host frees twice": [("free", "", "double-free", "act_out", "preload_host.c")],
    "one of each": [("free", "", "double-free", "act_out", "preload_host.c")],
    "module reads freed": [("load", "1", "heap-use-after-free", "act", "preload_module.c")],
    "threads": [],
    "threads over": [OVER],
    "vfork": [],
    "signals": [],
    "_exit": [],
}


def build_both(folder: str, compiler: Compiler, link: str = "now") -> None:
    compiler.c(folder, [f"{TESTS}/preload_host.c"], "host", "-O1", "-pthread", *LINKS[link], native=True)
    compiler.c(folder, [f"{TESTS}/preload_module.c"], "module.so", "-O1", "-fPIC", "-shared")


def preloaded(folder: str, *argv: str, **settings: str) -> "subprocess.CompletedProcess[bytes]":
    """Runs a command that has it preloaded. No setting but the given ones is there."""
    given = {"LD_PRELOAD": PRELOADED, "ASANCOL_TRACE": "t.%p.trace", "ASANCOL_WHERE": "1", **settings}
    return run(list(argv), folder, **{name: value for name, value in given.items() if value})


def traces_in(folder: str) -> List[str]:
    return sorted(glob.glob(f"{folder}/t.*.trace"), key=os.path.getmtime)


def take_trace(folder: str) -> Optional[str]:
    """The only trace, under another name; or None."""
    found = traces_in(folder)
    if not found:
        return None
    expect(len(found), 1, "traces")
    os.replace(found[0], f"{folder}/taken.trace")
    if os.path.exists(f"{found[0]}.where"):
        os.replace(f"{found[0]}.where", f"{folder}/taken.trace.where")
    return f"{folder}/taken.trace"


def the_trace(folder: str) -> str:
    """The only trace, under another name."""
    trace = take_trace(folder)
    if trace is None:
        raise Failure("there is no trace")
    return trace


def check_cases(suite: Suite, folder: str, compiler: Compiler, link: str, **settings: str) -> None:
    """Each case has its reports with their lines, and its trace a close."""
    build_both(folder, compiler, link)
    for case, wanted in CASES.items():
        ran = preloaded(folder, "./host", "./module.so", case, **settings)
        expect((ran.returncode, ran.stdout, ran.stderr), (0, b"", b""), case)
        trace = take_trace(folder)
        found, status = placed(suite.asancol, trace)
        seen = [(it.kind, it.width, it.wrong, it.function, it.line.split(":")[0]) for it in found]
        expect((status, seen), (1 if wanted else 0, wanted), case)
        expect(reports(suite.asancol, trace)[2].split()[0], "closed", f"{case}: its fate")


def check_deep(suite: Suite, folder: str, compiler: Compiler) -> None:
    """A module that is opened with RTLD_DEEPBIND has the recorder's malloc too."""
    check_cases(suite, folder, compiler, "now", DEEP="1")


def check_calls(suite: Suite, folder: str, compiler: Compiler, link: str) -> None:
    """Calls of the module are checked, and those of the host that it passes its blocks to."""
    build_both(folder, compiler, link)
    for case, wanted in (("call", "preload_module.c"), ("host copies too much", "preload_host.c")):
        expect(preloaded(folder, "./host", "./module.so", case).returncode, 0, case)
        side = side_of(the_trace(folder))
        faults = [(it.call, side.lines([it.place[0]])[0][1].split(":")[0]) for it in side.faults()]
        expect({it for it in faults}, {("memcpy", wanted)}, case)


def check_processes(suite: Suite, folder: str, compiler: Compiler) -> None:
    """A forked child and a program after an exec have traces apart."""
    build_both(folder, compiler)
    for case, wanted in (("fork", [0, 1]), ("exec", [0, 1])):
        ran = preloaded(folder, "./host", "./module.so", case, ASANCOL_TRACE="t.%p.trace")
        expect((ran.returncode, ran.stderr), (0, b""), case)
        found = sorted(len(side_of(it).faults()) for it in traces_in(folder))
        fates = [reports(suite.asancol, it)[2].split()[0] for it in traces_in(folder)]
        expect((found, fates), (wanted, ["closed"] * 2), case)
        for path in glob.glob(f"{folder}/t.*"):
            os.unlink(path)


def check_ends(suite: Suite, folder: str, compiler: Compiler) -> None:
    """A signal ends the process as without it, and the trace says where."""
    build_both(folder, compiler)
    for case, number, place in (("abort", signal.SIGABRT, "preload_module.c"), ("term", signal.SIGTERM, "")):
        expect(preloaded(folder, "./host", "./module.so", case).returncode, -number, case)
        side = side_of(the_trace(folder))
        expect(side.signal, number, case)
        lines = [line.split(":")[0] for _, line in side.lines([it for it in side.last().calls if side.path(it)])]
        expect(place in lines or not place, True, f"{case}: {lines}")


def check_without_module(suite: Suite, folder: str, compiler: Compiler) -> None:
    """A program without a module is not recorded, unless it has a bad free; nor one for which nothing is asked."""
    build_both(folder, compiler)
    expect(preloaded(folder, "./host").returncode, 0, "no module")
    expect(preloaded(folder, "sh", "-c", "ls /; (exit 0)").returncode, 0, "a shell")
    expect(preloaded(folder, "./host", "./module.so", "over", ASANCOL_TRACE="").returncode, 0, "no trace")
    expect(traces_in(folder), [], "traces")
    expect(preloaded(folder, "./host", "bad").returncode, 0, "a bad free")
    trace = take_trace(folder)
    found, status = placed(suite.asancol, trace)
    expect([(it.kind, it.wrong, it.function) for it in found], [("free", "bad-free", "main")], "a bad free")
    expect(reports(suite.asancol, trace)[2].split()[0], "no-close", "no access was seen")


# As a user who may lock little: else the shadow would take all memory that there is, if it were locked.
LOCKS = """
#include <linux/capability.h>
#include <sys/mman.h>
#include <sys/resource.h>
#include <sys/syscall.h>
#include <unistd.h>
int main(void) {
    struct __user_cap_header_struct header = {_LINUX_CAPABILITY_VERSION_3, 0};
    struct __user_cap_data_struct rights[_LINUX_CAPABILITY_U32S_3];
    struct rlimit most = {8 << 20, 8 << 20};
    syscall(SYS_capget, &header, rights);
    rights[0].effective &= ~(1U << CAP_IPC_LOCK);
    if (syscall(SYS_capset, &header, rights) != 0 || setrlimit(RLIMIT_MEMLOCK, &most) != 0)
        return 2;
    return mlockall(MCL_CURRENT | MCL_FUTURE) != 0 || munlockall() != 0;
}
"""


def check_locked(_suite: Suite, folder: str, compiler: Compiler) -> None:
    """A plain program locks its memory before a module has come, and not the shadow, for which there is no room."""
    write(folder, locks_c=LOCKS)
    compiler.c(folder, ["locks.c"], f"{folder}/locks", native=True)
    expect(preloaded(folder, "./locks").returncode, 0, "the program")


def check_halt(suite: Suite, folder: str, compiler: Compiler) -> None:
    build_both(folder, compiler)
    for halt in ("1", "2"):
        ran = preloaded(folder, "./host", "./module.so", "read", ASANCOL_HALT=halt)
        expect((ran.returncode, take_trace(folder) is None), (0, halt == "2"), f"a good run, {halt}")
        ran = preloaded(folder, "./host", "./module.so", "over", ASANCOL_HALT=halt)
        expect(ran.returncode, -signal.SIGABRT, f"halt {halt}")
        found, _ = placed(suite.asancol, take_trace(folder))
        expect([it.line.split(":")[0] for it in found], ["preload_module.c"], f"halt {halt}")


HIDES = "{ global: main; local: *; };\n"
COPIES = """
#include <stdlib.h>
#include <string.h>
int main(int count, char **argv)
{
    char *copy = strdup(argv[count - 1]);
    int last = ((volatile char *)copy)[strlen(argv[count - 1]) + (count > 2)];
    free(copy);
    return last;
}
"""


def check_aside(suite: Suite, folder: str, compiler: Compiler) -> None:
    """A program of asancol-cc is recorded as without it, also if the C library finds the preloaded malloc first; and a
    static one."""
    write(folder, main_c=PAST_THE_END, helper_c=HELPER, copies_c=COPIES, one_map=HIDES)
    compiler.c(folder, ["main.c", "helper.c"], "program", "-DVALUE=1")
    compiler.c(folder, ["main.c", "helper.c"], "static", "-DVALUE=1", "-static")
    compiler.c(folder, ["copies.c"], "copies", "-fno-builtin")
    compiler.c(folder, ["copies.c"], "hides", "-fno-builtin", "-Wl,--version-script=one.map")
    for argv in (["./program"], ["./static"], ["./copies", "a text"], ["./copies", "a text", "more"],
                  ["./hides", "a text"]):
        seen = []
        for preload in ("", PRELOADED):
            ran = preloaded(folder, *argv, LD_PRELOAD=preload)
            expect((ran.returncode, ran.stderr), (0, b""), f"{argv}")
            trace = the_trace(folder)
            unchecked = [it.replace(os.path.basename(PRELOADED), "libc.so.6") for it in side_of(trace).unchecked()]
            seen.append((reports(suite.asancol, trace), unchecked))
        expect(seen[1], seen[0], f"{argv}")
    expect("malloc of libc.so.6" in seen[0][1], True, "its malloc is hidden")


OTHER = """
#define _GNU_SOURCE
#include <dlfcn.h>
#include <stdlib.h>
#include <unistd.h>
static int count;
void *malloc(size_t size)
{
    static void *(*next)(size_t);
    if (!next)
        next = (void *(*)(size_t))dlsym(RTLD_NEXT, "malloc");
    count++;
    return next(size);
}
__attribute__((destructor)) static void say(void) { if (count && write(1, "counted\\n", 8) < 0) _exit(9); }
"""


def check_others(suite: Suite, folder: str, compiler: Compiler) -> None:
    """Another library that is preloaded too does its work, before it or after it."""
    build_both(folder, compiler)
    write(folder, other_c=OTHER)
    compiler.c(folder, ["other.c"], "other.so", "-shared", "-fPIC", native=True)
    for order, said in ((f"{PRELOADED}:./other.so", b""), (f"./other.so:{PRELOADED}", b"counted\n")):
        ran = preloaded(folder, "./host", "./module.so", "over", LD_PRELOAD=order)
        expect((ran.returncode, ran.stdout, ran.stderr), (0, said, b""), order)
        expect([it.wrong for it in placed(suite.asancol, take_trace(folder))[0]], ["heap-buffer-overflow"], order)


def check_no_room(suite: Suite, folder: str, compiler: Compiler) -> None:
    """A program for which there is no room for a shadow runs as without it."""
    build_both(folder, compiler)
    ran = preloaded(folder, "sh", "-c", "ulimit -v 4000000; ./host && ls /")
    expect((ran.returncode, b"usr" in ran.stdout, ran.stderr, traces_in(folder)), (0, True, b"", []), "no room")


NEWS = """
#include <cstdlib>
#include <new>
extern "C" { void *make(int kind); void take(int kind, void *it); }
void *make(int kind) { return kind == 0 ? malloc(5) : kind == 1 ? operator new(5) : operator new[](5); }
void take(int kind, void *it)
{
    if (kind == 0) free(it); else if (kind == 1) operator delete(it); else operator delete[](it);
}
"""
NEWS_HOST = """
#include <dlfcn.h>
#include <stdlib.h>
#include <new>
int main(int, char **argv)
{
    void *opened = dlopen("./news.so", RTLD_NOW);
    void *(*make)(int) = opened ? (void *(*)(int))dlsym(opened, "make") : 0;
    void (*take)(int, void *) = opened ? (void (*)(int, void *))dlsym(opened, "take") : 0;
    if (!make || !take)
        return 1;
    for (int kind = 0; kind < 3; kind++)
        take(kind, make(kind));
    take(1, operator new(5));
    take(2, operator new[](5));
    take(0, malloc(5));
    operator delete(make(1));
    if (argv[1])
        take(1, make(0));
    return 0;
}
"""


def check_families(suite: Suite, folder: str, compiler: Compiler) -> None:
    """What the module makes a plain program may free, and the other way, also if that has the library of C++ inside;
    the module's own mismatch is noted."""
    if not compiler.cxx:
        leave_out(f"no C++ of {compiler}")
        return
    write(folder, news_cpp=NEWS, host_cpp=NEWS_HOST)
    compiler.cpp(folder, ["news.cpp"], "news.so", "-shared", "-fPIC")
    for flags in ((), ["-static-libstdc++", "-static-libgcc"], ["-rdynamic", "-static-libstdc++"]):
        compiler.cpp(folder, ["host.cpp"], "host", *flags, native=True)
        expect(preloaded(folder, "./host").returncode, 0, f"{flags}")
        expect(list(side_of(the_trace(folder)).findings()), [], f"{flags}")
    compiler.cpp(folder, ["host.cpp"], "host", native=True)
    expect(preloaded(folder, "./host", "bad").returncode, 0, "a mismatch")
    expect(len(list(side_of(the_trace(folder)).findings())), 1, "a mismatch")


def check_linked_otherwise(suite: Suite, folder: str, compiler: Compiler) -> None:
    """A module that asancol-cc compiled and did not link is recorded from its first bad access on."""
    build_both(folder, compiler)
    compiler.c(folder, [f"{TESTS}/preload_module.c"], "module.o", "-O1", "-fPIC", "-c")
    compiler.c(folder, ["module.o"], "other.so", "-shared", native=True)
    for case in ("over", "stack", "global"):
        expect(preloaded(folder, "./host", "./other.so", case).returncode, 0, case)
        found, _ = placed(suite.asancol, take_trace(folder))
        expect([it.line.split(":")[0] for it in found], ["preload_module.c"], case)


LINKED_HOST = """
#include <stdlib.h>
void *act(const char *what, void *block);
int main(int count, char **argv)
{
    char *block = malloc(10);
    block[2] = 1;
    act(argv[count - 1], block);
    free(block);
    return 0;
}
"""


def check_linked_with(suite: Suite, folder: str, compiler: Compiler) -> None:
    """A shared object that a plain program is linked with, or that is preloaded too, is there from the start."""
    write(folder, host_c=LINKED_HOST)
    compiler.c(folder, [f"{TESTS}/preload_module.c"], "module.so", "-O1", "-fPIC", "-shared", "-Wl,-soname,./module.so")
    compiler.c(folder, ["host.c", "./module.so"], "host", native=True)
    for preload in (PRELOADED, f"{PRELOADED}:./module.so"):
        for case, wanted in (("read", []), ("over", ["heap-buffer-overflow"]), ("stack", ["stack-buffer-overflow"])):
            ran = preloaded(folder, "./host", case, LD_PRELOAD=preload)
            expect((ran.returncode, ran.stderr), (0, b""), case)
            trace = take_trace(folder)
            expect([it.wrong for it in placed(suite.asancol, trace)[0]], wanted, case)
            expect(reports(suite.asancol, trace)[2].split()[0], "closed", f"{case}: its fate")


CLONES = """
#define _GNU_SOURCE
#include <dlfcn.h>
#include <sched.h>
#include <signal.h>
#include <stdlib.h>
#include <sys/syscall.h>
#include <sys/wait.h>
#include <unistd.h>
int main(void)
{
    int status;
    long child;
    __asm__ volatile("syscall" : "=a"(child) : "a"(SYS_clone), "D"(SIGCHLD), "S"(0), "d"(0) : "rcx", "r11", "memory");
    if (child == 0)
        _exit(dlopen("./module.so", RTLD_NOW) == NULL);
    return waitpid((pid_t)child, &status, 0) != child || status != 0;
}
"""


def check_clone(suite: Suite, folder: str, compiler: Compiler) -> None:
    """A child that no fork has announced is not recorded, and a line says so once it has a module."""
    build_both(folder, compiler)
    write(folder, clones_c=CLONES)
    compiler.c(folder, ["clones.c"], "clones", native=True)
    ran = preloaded(folder, "./clones")
    expect((ran.returncode, b"a child is not recorded" in ran.stderr), (0, True), ran.stderr.decode())
    expect(traces_in(folder), [], "traces")


def check_note(suite: Suite, folder: str) -> None:
    """It is all of asancol-cc, and shows nothing but what others may ask for."""
    expect(noted(PRELOADED), [], "its note")
    shown = run(["nm", "-D", "--defined-only", PRELOADED], folder).stdout.decode()
    names = [line.split()[-1] for line in shown.splitlines()]
    odd = [it for it in names if re.match("asancol(?!_report_)|__wrap|__real|__start|__stop", it)]
    asked_for = {"malloc", "__asan_report_load1_noabort", "asancol_report_load1"} - set(names)
    expect((odd, asked_for), ([], set()), "names")
    needed = run(["readelf", "-d", PRELOADED], folder).stdout.decode()
    libraries = {it.split("[")[1].split("]")[0] for it in needed.splitlines() if "(NEEDED)" in it}
    expect(libraries <= {"libc.so.6", "ld-linux-x86-64.so.2"}, True, f"{libraries}")


def tests(suite: Suite, compiler: Compiler) -> None:
    for link in LINKS:
        suite.test(f"{compiler} preloaded, host {link}", check_cases, compiler, link)
        suite.test(f"{compiler} preloaded, calls, host {link}", check_calls, compiler, link)
    for name, test in (("processes", check_processes), ("ends", check_ends), ("no module", check_without_module),
                       ("locked", check_locked), ("halt", check_halt), ("steps aside", check_aside),
                       ("beside another", check_others),
                       ("no room", check_no_room), ("families", check_families),
                       ("linked otherwise", check_linked_otherwise), ("linked with it", check_linked_with),
                       ("clone", check_clone), ("RTLD_DEEPBIND", check_deep)):
        suite.test(f"{compiler} preloaded, {name}", test, compiler)


def tests_of_all(suite: Suite) -> None:
    suite.test("preloaded, names", check_note)
