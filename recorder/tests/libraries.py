"""What plain libraries call: the C library's functions that are checked are checked for them too."""

import os
from typing import Dict, List, Sequence, Tuple

from support import TESTS, Compiler, Suite, expect, placed, reports, run, side_of, write
from testing.programs import NO_SETTINGS
from unchecked import LINKERS

# How a library is linked: its calls wait for their first time, or are bound at once, also by pointers, and read-only.
LINKS: Dict[str, Sequence[str]] = {
    "lazy": ["-Wl,-z,lazy"],
    "now": ["-Wl,-z,now", "-Wl,-z,relro"],
    "symbolic": ["-fno-plt", "-Wl,-Bsymbolic", "-Wl,-z,norelro"],
}

# What the library does, the function of the C library that has the fault, and the class if there is another.
CASES: Dict[str, str] = {
    "copy": "strcpy", "table": "strcpy", "thread": "strcpy", "elsewhere": "strcpy", "opened": "strcpy",
    "again": "strcpy", "handler": "strcpy", "length": "strlen", "wide": "wcslen", "print": "snprintf",
    "scan": "sscanf", "write": "write", "piece": "writev", "take": "read", "sort": "memcpy",
}
STREAMS = {"print": 12, "read": 16, "get_line": 21, "write": 25, "collate": 30, "demangle": 35}


def plain(compiler: Compiler, folder: str, name: str, *flags: str) -> None:
    compiler.c(folder, [f"{TESTS}/plain_library.c"], name, "-fPIC", "-shared", "-fno-builtin", "-O1", "-g0", "-Wl,-s",
               *flags, "-pthread", native=True)


def build_user(suite: Suite, folder: str, compiler: Compiler, link: str, *flags: str) -> None:
    for name in ("libplain.so", "libplain-other.so", "libplain-third.so"):
        plain(compiler, folder, name, *LINKS[link])
    compiler.c(folder, [f"{TESTS}/plain_user.c", "./libplain.so"], "user", "-O1", "-fno-builtin", *flags)


def faults_of(folder: str, name: str) -> List[Tuple[str, str]]:
    """The functions of the C library, and the first lines of their stacks that are in a source of the tests."""
    found = []
    sources = os.listdir(TESTS)
    side = side_of(f"{folder}/{name}")
    for fault in side.faults():
        # One of two libraries that have lain at the same place has no lines.
        lines = [line for _, line in side.lines([it for it in fault.place if side.path(it)])]
        found.append((fault.call, next((it for it in lines if it.split(":")[0] in sources), "")))
    return found


def seen(suite: Suite, folder: str, *argv: str, **settings: str) -> Tuple[int, List[Tuple[str, str]]]:
    """The status of the check, and the faults of a run."""
    ran = run(list(argv), folder, ASANCOL_TRACE="t.trace", ASANCOL_WHERE="1", **settings)
    expect((ran.returncode, ran.stderr), (0, b""), f"{argv}")
    status = reports(suite.asancol, f"{folder}/t.trace")[0]
    found = faults_of(folder, "t.trace")
    for name in ("t.trace", "t.trace.where"):
        os.unlink(f"{folder}/{name}")
    return status, found


def check_calls(suite: Suite, folder: str, compiler: Compiler, link: str) -> None:
    """Each case is found with the function and a line of the program, and is clean if it is done well."""
    build_user(suite, folder, compiler, link)
    for case, function in CASES.items():
        status, found = seen(suite, folder, "./user", case, "bad")
        expect((status, {call for call, _ in found}), (1, {function}), f"{case}: {found}")
        # A thread of the library has no line of the program's.
        expect({line.split(":")[0] for _, line in found}, {"" if case == "thread" else "plain_user.c"}, case)
        expect(seen(suite, folder, "./user", case), (0, []), f"{case}, done well")
        if case == "copy":
            expect(seen(suite, folder, "./user", case, "bad", ASANCOL_LIBRARIES="0"), (0, []), "if it is off")


def check_slots(suite: Suite, folder: str, compiler: Compiler) -> None:
    """If nothing is recorded, or it is off, a library calls the C library as without asancol-cc."""
    for link in LINKS:
        build_user(suite, folder, compiler, link)
        expect(run(["./user", "slots"], folder).stdout, b"1", f"{link}: not recorded")
        off = run(["./user", "slots"], folder, ASANCOL_TRACE="t.trace", ASANCOL_LIBRARIES="0")
        expect(off.stdout, b"1", f"{link}: off")
        on = run(["./user", "slots"], folder, ASANCOL_TRACE="u.trace")
        expect(on.stdout, b"0", f"{link}: on")


def check_fork(suite: Suite, folder: str, compiler: Compiler) -> None:
    """A child that a library has forked has its own fault."""
    build_user(suite, folder, compiler, "now")
    ran = run(["./user", "child", "bad"], folder, ASANCOL_TRACE="t.%p.trace", ASANCOL_WHERE="1")
    expect((ran.returncode, ran.stderr), (0, b""), "the program")
    names = sorted(it for it in os.listdir(folder) if it.endswith(".trace"))
    expect(len(names), 2, "traces")
    expect(sorted(len(faults_of(folder, it)) for it in names), [0, 1], "faults")


EARLY = """
#include <stdlib.h>
size_t plain_resolved(void);
int main(void) { return plain_resolved() != 7; }
"""
OLD = """
#include <stdlib.h>
#include <string.h>
void plain_old_copy(char *);
int main(void)
{
    char *text = malloc(8);
    strcpy(text, "abcdef");
    plain_old_copy(text);
    return strcmp(text, "aabcdef") != 0;
}
"""
# What comes before the C library by its place, and what a program has itself.
OWN = "char *strcpy(char *to, const char *from) { (void)from; to[0] = 'x'; return to; }\n"
BEFORE = """
char *strcpy(char *to, const char *from) { while ((*to++ = *from++)) {} return to; }
unsigned long strlen(const char *of) { unsigned long n = 0; while (of[n]) n++; return n; }
"""
# In a namespace of its own there is another C library.
APART = """
#define _GNU_SOURCE
#include <dlfcn.h>
#include <stdlib.h>
int main(void)
{
    void *opened = dlmopen(LM_ID_NEWLM, "./libplain.so", RTLD_NOW);
    char *(*copy)(char *, const char *) = opened ? (char *(*)(char *, const char *))dlsym(opened, "plain_copy") : 0;
    char *block = malloc(8);
    return copy == 0 || copy(block, "a text") != block;
}
"""


def check_start(suite: Suite, folder: str, compiler: Compiler) -> None:
    """A constructor of a library is checked, and a resolver is not, which runs before anything is there."""
    write(folder, early_c=EARLY)
    for link, flags in LINKS.items():
        plain(compiler, folder, "libplain.so", "-DEARLY", *flags)
        compiler.c(folder, ["early.c", "./libplain.so"], "early")
        status, found = seen(suite, folder, "./early")
        expect((status, [call for call, _ in found]), (1, ["strcpy"]), link)


def check_others(suite: Suite, folder: str, compiler: Compiler) -> None:
    """A function other than the C library's current one is called unchanged: an old version, that of a library which
    comes first, the program's own, and those of another namespace."""
    write(folder, old_c=OLD, own_c=OWN, before_c=BEFORE, apart_c=APART)
    for link, flags in LINKS.items():
        plain(compiler, folder, "libplain.so", "-DOLD", *flags)
        compiler.c(folder, ["old.c", "./libplain.so"], "old")
        expect(seen(suite, folder, "./old"), (0, []), f"{link}: an old version")
        build_user(suite, folder, compiler, link)
        compiler.c(folder, ["before.c"], "libbefore.so", "-fPIC", "-shared", "-O0", "-fno-builtin", native=True)
        before = {"LD_PRELOAD": "./libbefore.so"}
        expect(seen(suite, folder, "./user", "copy", "bad", **before), (0, []), f"{link}: what comes first")
        # A library whose calls wait does not know yet which one it will find; the C library is as good.
        expect(seen(suite, folder, "./user", "length", **before), (0, []), f"{link}: what comes first")
        compiler.c(folder, [f"{TESTS}/plain_user.c", "own.c", "./libplain.so"], "user", "-O1", "-fno-builtin")
        expect(seen(suite, folder, "./user", "copy", "bad"), (0, []), f"{link}: the program's own")
        compiler.c(folder, ["apart.c"], "apart")
        expect(seen(suite, folder, "./apart"), (0, []), f"{link}: another namespace")


def check_streams(suite: Suite, folder: str, compiler: Compiler) -> None:
    """Bugs in streams, with the line of the caller; by a library of C++ that is compiled in, and by the plain one."""
    for flags in (["-O0"], ["-O2"]):
        compiler.cpp(folder, [f"{TESTS}/streams.cpp"], "streams", "-fno-inline", *flags)
        for case, line in STREAMS.items():
            status, found = seen(suite, folder, "./streams", case, "bad")
            expect(status, 1, f"{case} {flags}")
            lines = {place for _, place in found}
            expect(any(f"streams.cpp:{line}" == place for place in lines), True, f"{case} {flags}: {lines}")
            expect(seen(suite, folder, "./streams", case), (0, []), f"{case}, done well")


# The library's pages of slots are as the loader has left them.
PROTECTED = """
#include <stdio.h>
#include <string.h>
int plain_table_is_library(void);
extern void *const plain_table[];
int main(void)
{
    char line[4096], parts[5];
    unsigned long start, end;
    FILE *maps = fopen("/proc/self/maps", "r");
    while (fgets(line, sizeof line, maps))
        if (sscanf(line, "%lx-%lx %4s", &start, &end, parts) == 3 && strstr(line, "libplain.so")
            && strcmp(parts, "r--p") == 0)
            printf("read-only\\n");
    return plain_table_is_library();
}
"""


def check_protection(suite: Suite, folder: str, compiler: Compiler) -> None:
    write(folder, protected_c=PROTECTED)
    plain(compiler, folder, "libplain.so", *LINKS["now"])
    compiler.c(folder, ["protected.c", "./libplain.so"], "protected")
    said = [run(["./protected"], folder, **settings).stdout
            for settings in (NO_SETTINGS, {"ASANCOL_TRACE": "t.trace"})]
    expect(said[0].count(b"read-only") > 1, True, f"pages that are read-only: {said}")
    expect(said[1], said[0], "recorded")


# How a program is linked: its stubs are where the library's slots shall lead, whatever the linker takes away or hides.
PROGRAM_LINKS = (
    ["-flto"], ["-no-pie", "-fno-pie"], ["-Wl,-z,now", "-Wl,--exclude-libs,ALL"], ["-mcmodel=large"],
    *([f"-fuse-ld={linker}", "-Wl,--gc-sections"] for linker in LINKERS),
)
# A program that wraps the function by itself: that is for its own calls.
WRAPPER = """
char *__real_strcpy(char *, const char *);
char *__wrap_strcpy(char *to, const char *from) { to[0] = 0; return to; }
"""


def check_links(suite: Suite, folder: str, compiler: Compiler) -> None:
    write(folder, wrapper_c=WRAPPER)
    for flags in (*PROGRAM_LINKS, ["wrapper.c", "-Wl,--wrap=strcpy"]):
        build_user(suite, folder, compiler, "lazy", *flags)
        status, found = seen(suite, folder, "./user", "copy", "bad")
        expect((status, [call for call, _ in found]), (1, ["strcpy"]), f"{flags}")


CHURN = """
#include <dlfcn.h>
#include <stdio.h>
#include <stdlib.h>
#include <string.h>
long churn(long number)
{
    static const char *const names[] = {"./libplain.so", "./libplain-other.so", "./libplain-third.so"};
    long wrong = 0;
    for (long i = 0; i < 300; i++) {
        void *opened = dlopen(names[(number + i) % 3], RTLD_LAZY | RTLD_LOCAL);
        char *(*copy)(char *, const char *) = opened ? (char *(*)(char *, const char *))dlsym(opened, "plain_copy") : 0;
        char *block = malloc(16);
        if (copy)
            copy(block, "a text");
        wrong += !copy || strcmp(block, "a text") != 0;
        free(block);
        wrong += opened && dlclose(opened);
    }
    return wrong;
}
"""
THREADS = """
#include <pthread.h>
long churn(long number);
static void *run(void *number) { return (void *)churn((long)number); }
int main(void)
{
    pthread_t threads[6];
    long wrong = 0;
    for (long i = 0; i < 6; i++)
        wrong += pthread_create(&threads[i], 0, run, (void *)i);
    for (int i = 0; i < 6; i++) {
        void *more;
        wrong += pthread_join(threads[i], &more);
        wrong += (long)more;
    }
    return wrong != 0;
}
"""


def check_churn(suite: Suite, folder: str, compiler: Compiler) -> None:
    """Threads of a library open and close others at once: those that the loader has not relocated yet are left
    alone."""
    write(folder, churn_c=CHURN, threads_c=THREADS)
    for name, link in (("libplain.so", "now"), ("libplain-other.so", "lazy"), ("libplain-third.so", "symbolic")):
        plain(compiler, folder, name, *LINKS[link])
    compiler.c(folder, ["churn.c"], "libchurn.so", "-fPIC", "-shared", "-O1", "-fno-builtin", native=True)
    compiler.c(folder, ["threads.c", "./libchurn.so"], "threads", "-pthread")
    for _ in range(5):
        expect(seen(suite, folder, "./threads"), (0, []), "threads")


LEAVES = """
#include <signal.h>
#include <sys/mman.h>
#include <unistd.h>
static void handle(int number) { (void)number; _exit(4); }
int leave(int way)
{
    struct sigaction action = {.sa_handler = handle}, old;
    if (way == 1)
        _exit(4);
    if (way == 2)
        execl("/bin/sh", "sh", "-c", "exit 4", (char *)0);
    if (way == 3 && (sigaction(SIGSEGV, &action, &old) != 0 || old.sa_handler != SIG_DFL))
        return 1;
    if (way == 3)
        raise(SIGSEGV);
    char *memory = mmap(0, 1 << 20, PROT_READ | PROT_WRITE, MAP_PRIVATE | MAP_ANONYMOUS, -1, 0);
    memory[4096] = 1;
    return munmap(memory, 1 << 20) == 0 ? 4 : 1;
}
"""
CALLS_IT = """
#include <stdlib.h>
int leave(int);
int main(int count, char **argv) { free(malloc(8)); return leave(count > 1 ? atoi(argv[1]) : 0); }
"""


def check_ends(suite: Suite, folder: str, compiler: Compiler) -> None:
    """A process that a library ends, or makes another program of, is complete; its handlers see the program's own."""
    write(folder, leaves_c=LEAVES, main_c=CALLS_IT)
    for link in LINKS:
        compiler.c(folder, ["leaves.c"], "libleaves.so", "-fPIC", "-shared", "-O1", *LINKS[link], native=True)
        compiler.c(folder, ["main.c", "./libleaves.so"], "leaves")
        for way in ("0", "1", "2", "3"):
            ran = run(["./leaves", way], folder, ASANCOL_TRACE="t.trace")
            expect((ran.returncode, ran.stderr), (4, b""), f"{link} {way}")
            expect(reports(suite.asancol, f"{folder}/t.trace")[:2], (0, []), f"{link} {way}")
            os.unlink(f"{folder}/t.trace")


CLOSED = """#define _GNU_SOURCE
#include <stdlib.h>
#ifdef LIBRARY
void bug(void) { char *volatile p = malloc(5); p[5] = 1; free(p); }
#else
#include <dlfcn.h>
#include <fcntl.h>
#include <string.h>
#include <sys/mman.h>
int main(int argc, char **argv)
{
    void *library = dlopen("./libclosed.so", RTLD_NOW);
    char *start = (char *)dlsym(library, "bug");
    ((void (*)(void))start)();
    dlclose(library);
    start -= (unsigned long)start % 4096;
    int rights = strcmp(argv[1], "code") == 0 ? PROT_READ | PROT_EXEC : PROT_READ | PROT_WRITE;
    int file = strcmp(argv[1], "file") == 0 ? open(argv[0], O_RDONLY) : -1;
    mmap(start, 8192, rights, MAP_PRIVATE | MAP_FIXED | (file < 0 ? MAP_ANONYMOUS : 0), file, 0);
    dlopen("libm.so.6", RTLD_NOW); /* the modules are listed again */
    return 0;
}
#endif
"""


def check_closed(suite: Suite, folder: str, compiler: Compiler) -> None:
    """A library that was closed keeps its names if data lies at its addresses then, and not if that is code."""
    write(folder, closed_c=CLOSED)
    compiler.c(folder, ["closed.c"], f"{folder}/libclosed.so", "-shared", "-fPIC", "-DLIBRARY")
    compiler.c(folder, ["closed.c"], f"{folder}/closed", "-ldl", "-w")
    for what, is_known in (("memory", True), ("file", True), ("code", False)):
        trace = f"{folder}/{what}.trace"
        ran = run(["./closed", what], folder, ASANCOL_TRACE=trace, ASANCOL_WHERE="1")
        expect((ran.returncode, ran.stderr), (0, b""), what)
        side = side_of(trace)
        paths = [side.path(it.place[0]) for it in side.faults()]
        expect(paths, [f"{folder}/libclosed.so" if is_known else ""], what)
        seen = [(it.function, it.line) for it in placed(suite.asancol, trace)[0]] if is_known else []
        expect(seen, [("bug", "closed.c:4")] if is_known else [], what)


CROWDED = """#define _GNU_SOURCE
#include <stdlib.h>
#include <sys/mman.h>
#include <unistd.h>
int main(int count, char **argv)
{
    /* Below all code, and every other page as the recorder maps the shadow of unused memory. */
    enum { PAGES = 20000, PAGE = 4096 };
    int file = memfd_create("asancol-unused", 0);
    char *pages = mmap((void *)0x310000000000, (size_t)PAGES * PAGE, PROT_READ | PROT_WRITE,
                       MAP_PRIVATE | MAP_ANONYMOUS | MAP_NORESERVE, -1, 0);
    for (int i = 0; i < PAGES; i += 2)
        mmap(pages + (size_t)i * PAGE, PAGE, PROT_READ, MAP_PRIVATE | MAP_FIXED, file, 0);
    char *volatile block = malloc(8);
    block[count + 7] = argv[0][0];
    return 0;
}
"""


def check_crowded(suite: Suite, folder: str, compiler: Compiler) -> None:
    """A process with more mappings of memory than its note of modules can list keeps the names of its code."""
    write(folder, crowded_c=CROWDED)
    compiler.c(folder, ["crowded.c"], f"{folder}/crowded", "-g")
    ran = run(["./crowded"], folder, ASANCOL_TRACE="t.trace", ASANCOL_WHERE="1")
    expect((ran.returncode, ran.stderr), (0, b""), "the program")
    seen = [(it.function, it.line) for it in placed(suite.asancol, f"{folder}/t.trace")[0]]
    expect(seen, [("main", "crowded.c:15")], "its line")


def tests(suite: Suite, compiler: Compiler) -> None:
    suite.test(f"{compiler} libraries that were closed", check_closed, compiler)
    suite.test(f"{compiler} libraries beside 20,000 mappings", check_crowded, compiler)
    for link in LINKS:
        suite.test(f"{compiler} plain libraries, {link}", check_calls, compiler, link)
    suite.test(f"{compiler} plain libraries, their slots", check_slots, compiler)
    suite.test(f"{compiler} plain libraries, protected", check_protection, compiler)
    suite.test(f"{compiler} plain libraries that fork", check_fork, compiler)
    suite.test(f"{compiler} plain libraries that end the process", check_ends, compiler)
    suite.test(f"{compiler} plain libraries in links", check_links, compiler)
    suite.test(f"{compiler} plain libraries of threads", check_churn, compiler)
    suite.test(f"{compiler} plain libraries at the start", check_start, compiler)
    suite.test(f"{compiler} plain libraries beside others", check_others, compiler)
    if compiler.cxx:
        suite.test(f"{compiler} plain library of C++", check_streams, compiler)
