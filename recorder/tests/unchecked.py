"""Tests that what asancol-cc did not compile is said: in the note of a link, and beside the trace of a process."""

import os
import shutil

from builds import LINKERS
from support import CC, CXX, HELPER, PAST_THE_END, Failure, build, expect, has_plugin, noted, run, side_of, write

STATIC = "calls to the C library (-static)"

# An allocator that gives each block once.
ALLOCATOR = """
#include <stddef.h>
#include <string.h>
static _Alignas(16) char room[1 << 22];
static size_t used;
void *malloc(size_t size) { used += 16; char *p = room + used; memcpy(p - 16, &size, sizeof size);
                            used += (size + 15) / 16 * 16; return p; }
void free(void *p) { (void)p; }
void *calloc(size_t count, size_t size) { return malloc(count * size); }
void *realloc(void *p, size_t size) { void *q = malloc(size); if (p) memcpy(q, p, size); return q; }
"""
FORWARDS = """
#include <stddef.h>
void *__libc_malloc(size_t), __libc_free(void *), *__libc_calloc(size_t, size_t), *__libc_realloc(void *, size_t);
void *malloc(size_t size) { return __libc_malloc(size); }
void free(void *p) { __libc_free(p); }
void *calloc(size_t count, size_t size) { return __libc_calloc(count, size); }
void *realloc(void *p, size_t size) { return __libc_realloc(p, size); }
"""
OPENS = """
#include <dlfcn.h>
int main(int count, char **argv)
{
    void *opened = count > 1 ? dlopen(argv[1], RTLD_NOW) : 0;
    return (count > 1 && !opened) || (count > 2 && dlclose(opened) != 0);
}
"""


def make(folder, compiler, *words):
    """Builds with the wrapper, which says nothing."""
    made = run([CC, *words], folder, ASANCOL_CC=compiler.name)
    expect((made.returncode, made.stdout, made.stderr), (0, b"", b""), f"{words}")


def unchecked(folder, *argv, **settings):
    """What stands beside the trace of a program that was not checked, without libraries of the system."""
    ran = run(list(argv), folder, ASANCOL_TRACE="t.trace", ASANCOL_WHERE="1", **settings)
    expect(ran.returncode, 0, f"{argv}: {ran.stderr.decode()}")
    side = side_of(f"{folder}/t.trace")
    text = "".join(f"{it}\n" for it in side.unchecked())
    os.unlink(f"{folder}/t.trace")
    lines = text.splitlines()
    if STATIC not in lines and not any("/libc.so" in it.path for it in side.maps):
        raise Failure(f"the C library is not beside {lines}")
    expect([line for line in lines if line.startswith("/libc.so")], [], "the C library")
    return [line for line in lines if not line.startswith("/")]


OPENS_APART = """
#define _GNU_SOURCE
#include <dlfcn.h>
#include <string.h>
int main(int count, char **argv)
{
    int is_deep = strcmp(argv[1], "deep") == 0, flags = is_deep ? RTLD_NOW | RTLD_DEEPBIND : RTLD_NOW;
    void *opened = strcmp(argv[1], "apart") == 0 ? dlmopen(LM_ID_NEWLM, argv[2], flags) : dlopen(argv[2], flags);
    if (!opened || dlerror() || (count > 3 && dlclose(opened) != 0))
        return 1;
    return count > 3 && !dlopen("./libhelper.so", RTLD_NOW);
}
"""


def objects(folder, compiler):
    """main.o and ours.o by the wrapper, plain.o and other.o by the compiler."""
    write(folder, main_c=PAST_THE_END, helper_c=HELPER, other_c="int other(char *p) { return p[0]; }\n")
    make(folder, compiler, "-c", "main.c")
    make(folder, compiler, "-DVALUE=1", "-c", "helper.c", "-o", "ours.o")
    build([compiler.name, "-DVALUE=1", "-c", "helper.c", "-o", "plain.o"], folder)
    build([compiler.name, "-c", "other.c"], folder)


def archive(folder, name, *members):
    build(["ar", "rcsT" if name.startswith("thin") else "rcs", name, *members], folder)


def check_links(suite, folder, compiler):
    """What the linker has taken in counts, by each linker; and nothing else."""
    objects(folder, compiler)
    write(folder, one_map="{ global: main; };\n", data_ld="VERSION { }\n",
          script_a="/* a script */ GROUP ( plain.o )\n")
    archive(folder, "libplain.a", "plain.o", "other.o")
    archive(folder, "libours.a", "ours.o", "other.o")
    archive(folder, "libboth.a", "ours.o", "other.o")
    archive(folder, "thin.a", "plain.o", "other.o")
    archive(folder, "thin-ours.a", "ours.o")
    os.mkdir(f"{folder}/a folder")
    shutil.copy(f"{folder}/plain.o", f"{folder}/a folder/one (1).o")
    write(folder, words_rsp="main.o plain.o\n")
    force = "-Wl,--undefined=other"
    rows = [
        (["main.o", "plain.o"], [["plain.o"]]),
        (["main.o", "ours.o"], [[]]),
        (["main.o", "libplain.a"], [["libplain.a"]]),
        (["main.o", "libours.a"], [[]]),
        (["main.o", "libboth.a", force], [["libboth.a(other.o)"]]),
        (["main.o", "thin.a"], [["plain.o"], ["thin.a"]]),
        (["main.o", "thin-ours.a"], [[]]),
        (["main.o", "script.a"], [["plain.o"]]),
        (["main.o", "a folder/one (1).o"], [["one (1).o"]]),
        (["@words.rsp"], [["plain.o"]]),
        (["main.o", "ours.o", "-Wl,--version-script=one.map"], [[]]),
        (["main.o", "plain.o", "-s"], [["plain.o"]]),
        (["-static", "main.o", "plain.o"], [["plain.o", STATIC]]),
    ]
    for linker in LINKERS:
        for argv, wanted in rows:
            if linker == "mold" and ("-static" in argv or "libours.a" in argv):
                continue  # it has no ASSERT, and traces each member
            make(folder, compiler, f"-fuse-ld={linker}", *argv, "-o", "program")
            expect(noted(f"{folder}/program") in wanted, True, f"{linker} {argv}: {noted(f'{folder}/program')}")


def check_descriptors(suite, folder, compiler):
    """The wrapper sees what the linker has taken in whichever of its own descriptors are closed."""
    objects(folder, compiler)
    for closed in ("<&-", ">&-", "2>&-", "<&- >&-", "<&- >&- 2>&-"):
        build(["sh", "-c", f'"$0" main.c plain.o -o program {closed}', CC], folder, ASANCOL_CC=compiler.name)
        expect(noted(f"{folder}/program"), ["plain.o"], closed)


def check_mathematics(suite, folder, compiler):
    """The library of mathematics, which brings another that calls it; the compilers of C++ add it by themselves."""
    write(folder, root_c="#include <math.h>\nint main(int count, char **argv) { return argv && sqrt(count) < 1; }\n")
    write(folder, root_cpp="#include <cmath>\nint main(int count, char **) { return std::sqrt(count) < 1; }\n")
    for linker in LINKERS:
        for word in ("-lm", "-Wl,-lm"):
            make(folder, compiler, f"-fuse-ld={linker}", "root.c", word, "-o", "program")
            expect(unchecked(folder, "./program"), [], f"{linker} {word}")
        if compiler.cxx:
            argv = [CXX, f"-fuse-ld={linker}", "root.cpp", "-o", "program"]
            made = run(argv, folder, ASANCOL_CXX=compiler.cxx)
            expect((made.returncode, made.stdout, made.stderr), (0, b"", b""), f"{argv}")
            expect(unchecked(folder, "./program"), [], f"{linker} C++")


def check_parts(suite, folder, compiler):
    """An object of ld -r has the parts that it was made of, or nobody can say whose these are."""
    objects(folder, compiler)
    write(folder, label_s='.globl label\nlabel: ret\n.section .note.GNU-stack,"",@progbits\n')
    build([compiler.name, "-c", "label.s"], folder)
    rows = [
        (["main.o", "ours.o"], []),
        (["main.o", "plain.o"], ["some.o"]),
        (["main.o", "ours.o", "label.o"], ["some.o"]),
        (["-x", "main.o", "plain.o"], ["some.o"]),
    ]
    for linker in LINKERS:
        for argv, wanted in rows:
            if linker == "mold" and "-x" in argv:
                continue  # it ends by its own assertion
            build([f"ld.{linker}", "-r", *argv, "-o", "some.o"], folder)
            make(folder, compiler, f"-fuse-ld={linker}", "some.o", "-o", "program")
            expect(noted(f"{folder}/program"), wanted, f"{linker} {argv}")


# Its variable has the name of a function that is wrapped, and the linker warns of what it calls.
OWN = "int daemon = 3;\n"
WARNED = """
#include <stdio.h>
extern int daemon;
int main(void) { char name[L_tmpnam]; return daemon != 3 || tmpnam(name) == NULL; }
"""


def check_linker_words(suite, folder, compiler):
    """Words for the linker: an output, what it prints, and its warnings, which come once, also if it is run twice."""
    objects(folder, compiler)
    write(folder, own_c=OWN, warned_c=WARNED, strip_rsp="-s")
    for argv in (["-Wl,-o,program"], ["-Xlinker", "-o", "-Xlinker", "program"], ["-Wl,--output=program"]):
        make(folder, compiler, "main.o", "plain.o", *argv)
        expect(noted(f"{folder}/program"), ["plain.o"], f"{argv}")
        os.unlink(f"{folder}/program")
    for argv in ([], ["-s"], ["-Wl,-O1,-s"], ["-Xlinker", "--strip-all"], ["@strip.rsp"]):
        made = run([CC, "-fuse-ld=bfd", "own.c", "warned.c", *argv, "-o", "program"], folder, ASANCOL_CC=compiler.name)
        expect((made.returncode, made.stderr.count(b"is dangerous")), (0, 1), f"{argv}: {made.stderr.decode()}")
        expect(unchecked(folder, "./program"), [], f"{argv}")
    for word in ("-Wl,-t", "-Wl,--trace", "-Wl,--verbose"):
        made = run([CC, "-fuse-ld=bfd", "main.o", "ours.o", word, "-o", "program"], folder, ASANCOL_CC=compiler.name)
        expect((made.returncode, b"\nours.o\n" in made.stdout), (0, True), word)


def check_many(suite, folder, compiler):
    """A thousand files, in a response file: as many names as there is room for, and how many more there are."""
    objects(folder, compiler)
    os.mkdir(f"{folder}/many")
    write(folder, table_c="int unused_table[4];\n")
    build([compiler.name, "-fcommon", "-c", "table.c"], folder)
    names = [f"many/table-{i:04}.o" for i in range(1000)]
    for name in names:
        os.link(f"{folder}/table.o", f"{folder}/{name}")
    write(folder, all_rsp="\n".join(names))
    make(folder, compiler, "main.o", "ours.o", "@all.rsp", "-o", "program")
    lines = noted(f"{folder}/program")
    expect(lines[:2], ["table-0000.o", "table-0001.o"], "the first")
    expect(int(lines[-1].lstrip("+")) + len(lines) - 1, 1000, "how many in all")
    expect(unchecked(folder, "./program"), lines, "beside the trace")
    # The same from another folder is the same program.
    os.mkdir(f"{folder}/elsewhere")
    for name in ("main.o", "ours.o", "plain.o"):
        shutil.copy(f"{folder}/{name}", f"{folder}/elsewhere/{name}")
    make(folder, compiler, "main.o", "plain.o", "-o", "program")
    here = open(f"{folder}/program", "rb").read()
    make(f"{folder}/elsewhere", compiler, "main.o", "plain.o", "-o", "program")
    expect(open(f"{folder}/elsewhere/program", "rb").read() == here, True, "a program that is reproduced")


def check_loaded(suite, folder, compiler):
    """Shared objects that a process loads, whenever and by whom; its file may be stripped, or gone."""
    objects(folder, compiler)
    write(folder, opens_c=OPENS)
    build([compiler.name, "-fPIC", "-shared", "-DVALUE=1", "helper.c", "-o", "libplain.so"], folder)
    make(folder, compiler, "-fPIC", "-shared", "-DVALUE=1", "helper.c", "-o", "libours.so")
    build([compiler.name, "-fPIC", "-c", "other.c"], folder)
    make(folder, compiler, "-fPIC", "-shared", "-DVALUE=1", "helper.c", "other.o", "-o", "libhalf.so")
    for library, wanted in (("plain", ["libplain.so"]), ("ours", []), ("half", ["other.o"])):
        make(folder, compiler, "main.o", f"./lib{library}.so", "-o", "program")
        expect(unchecked(folder, "./program"), wanted, f"linked with {library}")
        make(folder, compiler, "opens.c", "-o", "opens")
        expect(unchecked(folder, "./opens", f"./lib{library}.so"), wanted, f"opens {library}")
        expect(unchecked(folder, "./opens", f"./lib{library}.so", "close"), wanted, f"opens and closes {library}")
        expect(unchecked(folder, "./opens", LD_PRELOAD=f"./lib{library}.so"), wanted, f"preloads {library}")
    make(folder, compiler, "main.o", "plain.o", "-o", "program")
    build(["strip", "program"], folder)
    expect(unchecked(folder, "./program"), ["plain.o"], "stripped")
    expect(unchecked(folder, "sh", "-c", "exec ./program"), ["plain.o"], "by a shell")


def check_mallocs(suite, folder, compiler):
    """Blocks of an allocator that the recorder does not know."""
    objects(folder, compiler)
    write(folder, hide_map="{ global: main; local: *; };\n", allocator_c=ALLOCATOR, forwards_c=FORWARDS)
    both = ["main.o", "ours.o"]
    for flag in ("-Wl,--version-script=hide.map", "-Wl,--exclude-libs,ALL"):
        make(folder, compiler, *both, flag, "-o", "program")
        expect(unchecked(folder, "./program"), ["malloc of libc.so.6"], flag)
    make(folder, compiler, "-w", "-fno-builtin", *both, "allocator.c", "-o", "program")
    expect(unchecked(folder, "./program"), ["malloc of program"], "its own")
    make(folder, compiler, "-w", "-fno-builtin", *both, "forwards.c", "-o", "program")
    expect(unchecked(folder, "./program"), [], "one that takes its blocks from the recorder's")
    build([compiler.name, "-w", "-fno-builtin", "-fPIC", "-shared", "allocator.c", "-o", "libother.so"], folder)
    make(folder, compiler, *both, "./libother.so", "-o", "program")
    expect(unchecked(folder, "./program"), ["libother.so"], "linked: it is not used")
    make(folder, compiler, *both, "-o", "program")
    wanted = ["calls by libraries (none known at link time)", "libother.so"]
    expect(unchecked(folder, "./program", LD_PRELOAD="./libother.so"), wanted, "preloaded: it is not used")


def check_apart(suite, folder, compiler):
    """Libraries that are opened so that they have another malloc than the program: it is said, also if they are closed
    before others are opened."""
    objects(folder, compiler)
    write(folder, opens_c=OPENS_APART, allocator_c=ALLOCATOR, forwards_c=FORWARDS)
    shared = ["-w", "-fno-builtin", "-fPIC", "-shared"]
    make(folder, compiler, "-fPIC", "-shared", "-DVALUE=1", "helper.c", "-o", "libhelper.so")
    make(folder, compiler, "-fPIC", "-shared", "-DVALUE=2", "helper.c", "-o", "libours.so")
    build([compiler.name, *shared, "-nostdlib", "-DVALUE=2", "helper.c", "-o", "libalone.so"], folder)
    build([compiler.name, *shared, "allocator.c", "-o", "libown.so"], folder)
    libc = ["malloc of libc.so.6"]
    for link in ([], ["-rdynamic"], ["-w", "-fno-builtin", "forwards.c"]):
        make(folder, compiler, "opens.c", *link, "-o", "opens")
        for close in ([], ["close"]):
            with_words = f"{link} {close}"
            expect(unchecked(folder, "./opens", "plainly", "./libours.so", *close), [], with_words)
            for way in ("deep", "apart"):
                found = unchecked(folder, "./opens", way, "./libours.so", *close)
                expect(found, libc, f"{way} {with_words}")
            found = unchecked(folder, "./opens", "deep", "./libalone.so", *close)
            expect(found, ["libalone.so"], f"calls no C library {with_words}")
            found = unchecked(folder, "./opens", "deep", "./libown.so", *close)
            expect(sorted(found), ["libown.so", "malloc of libown.so"], f"has its own {with_words}")


SKIPS = """
#include <pthread.h>
#include <stdlib.h>
#include <string.h>
#include <unistd.h>
static char *volatile past;
static volatile int is_over;
static void *lend(void *none)
{
    char local[8];
    past = local + 8;
    while (!is_over)
        usleep(100);
    return none;
}
static void store_from_elsewhere(void)
{
    enum { STACK = 1 << 18 };
    void *stack = aligned_alloc(4096, STACK);
    pthread_attr_t with;
    pthread_t thread;
    pthread_attr_init(&with);
    pthread_attr_setstack(&with, stack, STACK);
    pthread_create(&thread, &with, lend, 0);
    while (!past)
        usleep(100);
    *past = 1;
    is_over = 1;
    pthread_join(thread, 0);
}
__attribute__((noinline)) static char *ask(char *buffer) { return strcpy(buffer, "text"); }
int main(int count, char **argv)
{
    char buffer[16];
    if (count > 1 && argv[1][0] == 'f')
        store_from_elsewhere();
    return ask(buffer)[0] != 't';
}
"""
FAMILIES, RETURNS, NO_LEAKS, FRAMES = 1, 2, 4, 8


def check_skipped(suite, folder, compiler):
    """What settings have turned off, if it would be looked at; and accesses to a stack in a block from elsewhere."""
    write(folder, skips_c=SKIPS)
    make(folder, compiler, "-pthread", "skips.c", "-o", "plain")
    make(folder, compiler, "-pthread", "-fsanitize-address-use-after-return=runtime", "skips.c", "-o", "asks")
    usual = {"ASANCOL_TRACE": "t.trace", "ASANCOL_WHERE": "1", "ASANCOL_LEAKS": "1"}
    off = {"ASANCOL_MISMATCHES": "0", "ASANCOL_USE_AFTER_RETURN": "0"}
    for argv, settings, wanted in ((["plain"], {}, 0), (["plain"], off, FAMILIES), (["asks"], {}, 0),
                                   (["asks"], off, FAMILIES + RETURNS), (["plain", "frames"], {}, FRAMES),
                                   (["plain"], {"ASANCOL_LEAKS": "0"}, NO_LEAKS)):
        ran = run([f"./{argv[0]}", *argv[1:]], folder, **{**usual, **settings})
        expect((ran.returncode, ran.stderr), (0, b""), f"{argv} with {settings}")
        expect(side_of(f"{folder}/t.trace").skipped(), wanted, f"{argv} with {settings}")
        os.unlink(f"{folder}/t.trace")


ATTRIBUTES = """
#pragma GCC system_header
static __attribute__((no_sanitize_address, unused, noinline)) int of_system(char *p) { return p[0]; }
"""
ATTRIBUTED = """
#include "system.h"
#include "own.h"
__attribute__((no_sanitize("address"), noinline)) int one(char *p) { return p[0]; }
__attribute__((no_sanitize_address, noinline)) int two(char *p) { return one(p + 1); }
__attribute__((used)) int with_checks(char *p) { return two(p) + of_system(p) + of_own(p); }
"""
LAMBDAS = """
#include <coroutine>
#include <cstdlib>
#define BARE __attribute__((no_sanitize("address")))
struct base { virtual long f(char *p) = 0; virtual ~base() {} };
struct other { virtual long g() { return 1; } virtual ~other() {} };
struct both : other, base { BARE long f(char *p) override { return p[3]; } };
struct made { long x; BARE made(char *p) : x(p[2]) {} };
struct task {
    struct promise_type {
        task get_return_object() { return {}; }
        std::suspend_never initial_suspend() { return {}; }
        std::suspend_never final_suspend() noexcept { return {}; }
        void return_void() {}
        void unhandled_exception() {}
    };
};
static long sink;
BARE static task resumed(char *p) { sink += p[5]; co_return; }
template <class function> static long run(function f, char *p) { return f(p); }
int main() {
    char *p = (char *)calloc(1, 8);
    long a = run([](char *q) BARE { return (long)q[1]; }, p), b = run([&](auto q) BARE { return (long)q[2] + a; }, p);
    both x;
    base *y = &x;
    made m(p);
    resumed(p);
    return a + b + y->f(p) + m.x != 0;
}
"""
STORES_TO_SHADOW_STACK = """
#include <immintrin.h>
__attribute__((target("shstk"))) void store(unsigned *p) { _wrssd(1, p); }
"""


def check_lambdas(folder, compiler):
    """A lambda and a coroutine are functions; what GCC makes of a method or a constructor besides is not another."""
    write(folder, lambdas_cpp=LAMBDAS)
    for level in ("-O0", "-O2"):
        compiler.cpp(folder, ["lambdas.cpp"], f"{folder}/lambdas", "-std=c++20", "-w", level)
        expect(noted(f"{folder}/lambdas"), ["5 functions of lambdas.cpp (no_sanitize)"], level)


def check_attributes(suite, folder, compiler):
    """Functions that an attribute leaves without checks are counted, by their files, in each kind of link; those of the
    system's headers are not. So is an intrinsic named of which the plugin does not know what it accesses."""
    objects(folder, compiler)
    own = "static __attribute__((no_sanitize_address, noinline)) int of_own(char *p) { return p[1]; }\n"
    write(folder, system_h=ATTRIBUTES, own_h=own, some_c=ATTRIBUTED, stack_c=STORES_TO_SHADOW_STACK)
    said = ["1 function of own.h (no_sanitize)", "2 functions of some.c (no_sanitize)"]
    for level in ("-O0", "-O2"):
        make(folder, compiler, level, "-c", "some.c")
        archive(folder, "libsome.a", "some.o")
        build(["ld", "-r", "some.o", "ours.o", "-o", "both.o"], folder)
        for words in (["some.o", "ours.o"], ["some.c", "ours.o"], ["-flto", "some.c", "ours.o"], ["both.o"],
                      ["-s", "some.o", "ours.o"], ["ours.o", "-Wl,--undefined=one", "libsome.a"],
                      ["some.o", "ours.o", "-Wl,--gc-sections"]):
            make(folder, compiler, level, "main.o", *words, "-o", "program")
            expect(sorted(noted(f"{folder}/program")), said, f"{level} {words}")
    for linker in LINKERS:
        make(folder, compiler, f"-fuse-ld={linker}", "main.o", "some.o", "ours.o", "-o", "program")
        expect(sorted(noted(f"{folder}/program")), said, linker)
    if compiler.cxx:
        check_lambdas(folder, compiler)
    make(folder, compiler, "-fPIC", "-shared", "some.c", "-o", "libsome.so")
    expect(sorted(noted(f"{folder}/libsome.so")), said, "a shared object")
    make(folder, compiler, "main.o", "ours.o", "-o", "program")
    expect(noted(f"{folder}/program"), [], "without such functions")
    make(folder, compiler, "main.o", "ours.o", "stack.c", "-o", "program")
    expect(noted(f"{folder}/program"), ["accesses of __builtin_ia32_wrssd in stack.c"], "an intrinsic")


def tests(suite, compiler):
    suite.test(f"{compiler} unchecked: skipped", check_skipped, compiler)
    suite.test(f"{compiler} unchecked: links", check_links, compiler)
    suite.test(f"{compiler} unchecked: descriptors", check_descriptors, compiler)
    suite.test(f"{compiler} unchecked: mathematics", check_mathematics, compiler)
    suite.test(f"{compiler} unchecked: parts", check_parts, compiler)
    suite.test(f"{compiler} unchecked: words for the linker", check_linker_words, compiler)
    suite.test(f"{compiler} unchecked: many", check_many, compiler)
    if compiler.name == "gcc" and has_plugin(CC):
        suite.test(f"{compiler} unchecked: attributes", check_attributes, compiler)
    suite.test(f"{compiler} unchecked: loaded", check_loaded, compiler)
    suite.test(f"{compiler} unchecked: mallocs", check_mallocs, compiler)
    suite.test(f"{compiler} unchecked: mallocs apart", check_apart, compiler)
