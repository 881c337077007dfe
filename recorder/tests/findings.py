"""What the recorder finds by itself: of families of functions that allocate, and of calls with wrong arguments. Each
has the class and the line that AddressSanitizer says."""

import os
import re

from asancol_report.by_recorder import FORMS
from calls import lines_by_sanitizer, lines_of_stacks
from support import TESTS, expect, run, side_of

SOURCE = f"{TESTS}/findings.cpp"
FAMILY, OF_NEW = "alloc-dealloc-mismatch", "new-delete-type-mismatch"
# The findings.
CLASSES = {
    "malloc_delete": FAMILY, "malloc_delete_array": FAMILY, "calloc_delete": FAMILY, "strdup_delete": FAMILY,
    "new_free": FAMILY, "new_delete_array": FAMILY, "array_delete": FAMILY, "array_free": FAMILY,
    "array_realloc": FAMILY, "aligned_free": FAMILY, "nothrow_free": FAMILY,
    "sized": OF_NEW, "sized_aligned": OF_NEW, "aligned_plain": OF_NEW, "plain_aligned": OF_NEW, "as_plain": OF_NEW,
    "by_plain": FAMILY, "other_alignment": OF_NEW, "other_large": OF_NEW, "other_array": OF_NEW, "other_both": OF_NEW,
    "other_nothrow": OF_NEW,
    "memcpy": "memcpy-param-overlap", "mempcpy": "mempcpy-param-overlap", "strcpy": "strcpy-param-overlap",
    "stpcpy": "stpcpy-param-overlap", "strcat": "strcat-param-overlap", "strncpy": "strncpy-param-overlap",
    "strncat": "strncat-param-overlap", "strncat_before": "strncat-param-overlap", "strcat_nothing": None,
    "strncat_none": None, "strcat_beside": None, "wcsncat_before": "wcsncat-param-overlap", "wcscat_nothing": None,
    "wcscpy": "wcscpy-param-overlap", "wmemcpy": "wmemcpy-param-overlap",
    "calloc_overflow": "calloc-overflow", "array_overflow": "reallocarray-overflow",
    "pvalloc_overflow": "pvalloc-overflow", "aligned_alloc": "invalid-aligned-alloc-alignment",
    "aligned_alloc_size": "invalid-aligned-alloc-alignment",
    "posix_memalign": "invalid-posix-memalign-alignment", "memalign": "invalid-allocation-alignment",
    "too_big": "allocation-size-too-big", "usable_of_freed": "bad-malloc_usable_size",
    "container_end": "bad-__sanitizer_annotate_contiguous_container",
    "container_start": "bad-__sanitizer_annotate_contiguous_container", "container_good": None,
    "allocated_size": "bad-__sanitizer_get_allocated_size", "allocated_size_good": None,
    "new_too_big": "allocation-size-too-big", "nothrow_too_big": "allocation-size-too-big",
    "no_memory": "out-of-memory",
    "clean": None,
}
# The text of some.
WORDS = {
    "aligned_alloc": "alignment 7 of 14 bytes in aligned_alloc",
    "aligned_alloc_size": "alignment 64 of 10 bytes in aligned_alloc: the size is not a multiple of it",
    "sized_aligned": "operator delete of 32 bytes, and 64 bytes were allocated",
    "aligned_plain": "operator delete with no alignment, and 10 bytes with alignment 64 were allocated",
    "plain_aligned": "operator delete with alignment 64, and 10 bytes with no alignment were allocated",
    "other_array": "operator delete [] with alignment 128, and 10 bytes with alignment 64 were allocated",
    "other_both": "operator delete of 20 bytes with alignment 32, and 10 bytes with alignment 64 were allocated",
}
FLAGS_OF_CASES = ("-w", "-g", "-std=c++17", "-fno-builtin", "-fsized-deallocation")
# AddressSanitizer does not look at these, or ends where memory is refused. It knows alignments of up to 512.
ALONE = ("no_memory", "wcscpy", "wmemcpy", "wcsncat_before", "wcscat_nothing", "stpcpy", "mempcpy", "other_large")


def line_of(name):
    with open(SOURCE, encoding="utf-8") as file:
        lines = [number for number, line in enumerate(file, 1) if line.rstrip().endswith(f"// {name}")]
    return lines[0] if lines else 0


def found_in(trace):
    """The class of each finding, and the line of the test that it is in."""
    side = side_of(trace)
    found = []
    for it in side.findings():
        lines = [line for _, line in side.lines(it.place) if line.startswith("findings.cpp:")]
        found.append((FORMS[it.kind].class_of(it), int(lines[0].split(":")[1])))
    return found


def check_case(suite, folder, program, sanitized, name, wanted):
    trace = f"{folder}/t.trace"
    run([program, name], folder, ASANCOL_TRACE=trace, ASANCOL_WHERE="1")
    expect(found_in(trace), [(wanted, line_of(name))] if wanted else [], name)
    if name in WORDS:
        expect([FORMS[it.kind].words(it) for it in side_of(trace).findings()], [WORDS[name]], "what it says")
    if sanitized is None or name in ALONE:
        return
    ran = run([sanitized, name], folder, ASAN_OPTIONS="detect_leaks=0:allocator_may_return_null=0")
    said = re.search(r"SUMMARY: AddressSanitizer: ([\w-]+)", ran.stderr.decode())
    line = re.search(r"findings\.cpp:(\d+)", ran.stderr.decode())
    expect(said and said[1], wanted, "the class that AddressSanitizer says")
    expect(int(line[1]) if line else 0, line_of(name) if wanted else 0, "and its line")


def own_lines(program, stacks):
    """The innermost line of each stack that is one of the cases."""
    found = lines_of_stacks(program, stacks)
    return {name: next((it for it in lines if it.startswith("findings.cpp:")), "") for name, lines in found.items()}


def check_mismatches(suite, folder, compiler, *more):
    """Each wrong pair of functions, in a program that is built with more flags."""
    flags, program = [*FLAGS_OF_CASES, "-DBRIEF", *more], f"{folder}/findings"
    names = [name for name, wanted in CLASSES.items() if wanted in (FAMILY, OF_NEW)]
    classes, stacks = {}, {}
    compiler.cpp(folder, [SOURCE], program, *flags)
    for name in names:
        run([program, name], folder, ASANCOL_TRACE=f"{name}.trace", ASANCOL_WHERE="1")
        side = side_of(f"{folder}/{name}.trace")
        found = list(side.findings())
        classes[name] = [FORMS[it.kind].class_of(it) for it in found]
        modules = [(side.module(place), place) for it in found for place in it.place]
        stacks[name] = [place - start for (path, start), place in modules if path == program]
    expect(classes, {name: [CLASSES[name]] for name in names}, "classes")
    expect(own_lines(program, stacks), {name: f"findings.cpp:{line_of(name)}" for name in names}, "lines")
    if compiler.has_sanitizer:
        compiler.cpp(folder, [SOURCE], f"{folder}/sanitized", *flags, "-fsanitize=address", native=True)
        said = lines_by_sanitizer(folder, f"{folder}/sanitized", names, "findings.cpp")
        alone = {name for name in names if said.get(name) != f"findings.cpp:{line_of(name)}"}
        expect(alone, set(ALONE) & set(names), "other lines by AddressSanitizer")


def check_switch(suite, folder, program):
    trace = f"{folder}/t.trace"
    for name in ("array_free", "sized", "other_alignment"):
        run([program, name], folder, ASANCOL_TRACE=trace, ASANCOL_WHERE="1", ASANCOL_MISMATCHES="0")
        expect(found_in(trace), [], f"{name} with ASANCOL_MISMATCHES=0")
        os.unlink(trace)
        os.unlink(f"{trace}.where")


def check_refused(suite, folder, program):
    """With AddressSanitizer's allocator_may_return_null=1 these are no mistakes."""
    trace = f"{folder}/t.trace"
    for name in ("new_too_big", "nothrow_too_big", "too_big", "calloc_overflow", "posix_memalign", "no_memory"):
        ran = run([program, name], folder, ASANCOL_TRACE=trace, ASANCOL_WHERE="1", ASANCOL_MAY_RETURN_NULL="1")
        expect((ran.returncode, found_in(trace)), (0, []), name)
        os.unlink(trace)
        os.unlink(f"{trace}.where")


# A program that replaces some operators, and uses what the library compiled and what it did not.
REPLACES = r"""
#include <cstdio>
#include <cstdlib>
#include <new>
#include <sstream>
#include <string>
#include <vector>
#ifdef NEW
void *operator new(size_t size) { if (void *p = malloc(size ? size : 1)) return p; throw std::bad_alloc(); }
#endif
#ifdef DELETE
void operator delete(void *p) noexcept { free(p); }
#endif
#ifdef NEW_ARRAY
void *operator new[](size_t size) { return malloc(size); }
#endif
struct Item { ~Item() {} int numbers[3]; };
int main(int count, char **) {
    std::ostringstream out;
    for (int i = 0; i < 1000; i++) out << "x" << i << "\n";
    std::string text = out.str() + "y";
    text.resize(text.size() * 2);
    std::vector<std::string> lines;
    std::istringstream in(text);
    for (std::string line; std::getline(in, line);) lines.push_back(line);
    Item *items = new Item[count + 3];
    delete[] items;
    delete new Item;
    delete new std::string(text);
    try { throw std::string("a"); } catch (std::string &it) { lines.push_back(it); }
    return lines.empty();
}
"""
FLAGS = ((), ["-DNEW"], ["-DDELETE"], ["-DNEW_ARRAY"], ["-DNEW", "-DDELETE"], ["-static-libstdc++"],
         ["-static-libstdc++", "-DNEW"], ["-static-libstdc++", "-DDELETE"], ["-O2", "-std=c++20"])


def check_replaced(suite, folder, compiler, flags):
    with open(f"{folder}/r.cpp", "w", encoding="utf-8") as file:
        file.write(REPLACES)
    compiler.cpp(folder, ["r.cpp"], "r", "-w", *flags)
    ran = run([f"{folder}/r"], folder, ASANCOL_TRACE="t.trace", ASANCOL_WHERE="1")
    expect(ran.returncode, 0, f"the status with {flags}")
    expect(found_in(f"{folder}/t.trace"), [], f"findings with {flags}")


LIBRARY = r"""
#include <string>
#include <cstdlib>
#include <cstring>
extern "C" char *make_letters() {
    std::string s(40, 'a');
    s += "b";
    auto *kept = new std::string(s);
    delete kept;
    return strdup(s.c_str());
}
extern "C" void *make_number() { return new int(1); }
extern "C" void drop_number(void *it) { delete (int *)it; }
"""
OPENS = r"""
#include <dlfcn.h>
#include <stdio.h>
#include <stdlib.h>
int main(int count, char **argv) {
    void *library = dlopen(argv[1], RTLD_NOW);
    if (library == NULL) return puts(dlerror()), count;
    free(((char *(*)(void))dlsym(library, "make_letters"))());
    ((void (*)(void *))dlsym(library, "drop_number"))(((void *(*)(void))dlsym(library, "make_number"))());
    return 0;
}
"""


def check_opened(suite, folder, compiler, is_native, flags):
    """A program in C that opens a library in C++, which is built with the recorder or without."""
    for name, text in (("l.cpp", LIBRARY), ("c.c", OPENS)):
        with open(f"{folder}/{name}", "w", encoding="utf-8") as file:
            file.write(text)
    compiler.c(folder, ["c.c", "-ldl"], "c", "-w")
    compiler.cpp(folder, ["l.cpp"], "l.so", "-shared", "-fPIC", "-w", *flags, native=is_native)
    ran = run([f"{folder}/c", "./l.so"], folder, ASANCOL_TRACE="t.trace", ASANCOL_WHERE="1")
    expect((ran.returncode, ran.stdout), (0, b""), "the program")
    expect([FORMS[it.kind].class_of(it) for it in side_of(f"{folder}/t.trace").findings()], [], "findings")


HANDS_OVER = r"""
#include <cstdlib>
#include <string>
extern "C" void drop_number(void *it);
extern "C" void drop_text(std::string *it);
int main(int count, char **) {
    drop_number(new int(count));
    drop_text(new std::string(40, 'a'));
    if (count > 1) free(new int(count));
}
"""
TAKES_OVER = r"""
#include <string>
extern "C" void drop_number(void *it) { delete (int *)it; }
extern "C" void drop_text(std::string *it) { *it += "b"; delete it; }
"""


def check_handed_over(suite, folder, compiler):
    """A library that was not built with the recorder deletes what the program has made: libstdc++'s operator jumps to
    free, which the library then seems to call. What the program itself does wrong is still found."""
    for name, text in (("l.cpp", TAKES_OVER), ("p.cpp", HANDS_OVER)):
        with open(f"{folder}/{name}", "w", encoding="utf-8") as file:
            file.write(text)
    compiler.cpp(folder, ["l.cpp"], "l.so", "-O2", "-shared", "-fPIC", native=True)
    compiler.cpp(folder, ["p.cpp", "./l.so"], "p", "-w", "-fno-builtin")
    for argv, wanted in ((["./p"], []), (["./p", "wrong"], [FAMILY])):
        run(argv, folder, ASANCOL_TRACE=f"{len(argv)}.trace", ASANCOL_WHERE="1")
        found = side_of(f"{folder}/{len(argv)}.trace").findings()
        expect([FORMS[it.kind].class_of(it) for it in found], wanted, " ".join(argv))


# A handler comes before an instruction of an operator new or delete, at one after another of the first ones. What it
# allocates is given back as it was allocated; the block of the operator is freed, if there is a word.
BETWEEN = r"""
#include <climits>
#include <csignal>
#include <cstdlib>
#include <ucontext.h>
enum { TRAP_FLAG = 1 << 8, STEPS = 150 };
static volatile long steps_left = LONG_MAX;
static void *volatile kept;
static volatile bool uses_operators;
static void step(int, siginfo_t *, void *context) {
    if ((steps_left = steps_left - 1) != 0) return;
    ((ucontext_t *)context)->uc_mcontext.gregs[REG_EFL] &= ~TRAP_FLAG;
    if (uses_operators) delete new int;
    else free(realloc(malloc(40), 50));
    kept = malloc(24);
}
static __attribute__((noinline)) void set_stepping(bool is_on) {
    unsigned long long flags = __builtin_ia32_readeflags_u64() & ~(unsigned long long)TRAP_FLAG;
    __builtin_ia32_writeeflags_u64(is_on ? flags | TRAP_FLAG : flags);
}
static void go_through(bool is_freed, long before) {
    long in_new = before <= STEPS ? before : LONG_MAX, in_delete = before <= STEPS ? LONG_MAX : before - STEPS;
    if (before == 0) return delete new int;
    steps_left = in_new;
    set_stepping(in_new != LONG_MAX);
    int *volatile block = new int;
    set_stepping(false);
    steps_left = in_delete;
    set_stepping(in_delete != LONG_MAX && !is_freed);
    if (is_freed) free(block);
    else delete block;
    set_stepping(false);
    free(kept);
    kept = nullptr;
}
int main(int count, char **) {
    struct sigaction action = {};
    action.sa_sigaction = step;
    action.sa_flags = SA_SIGINFO;
    sigaction(SIGTRAP, &action, nullptr);
    for (int form = 0; form < 2; form++)
        for (long before = 0; before <= (count > 1 ? STEPS : 2 * STEPS); before++) {
            uses_operators = form != 0;
            go_through(count > 1, before);
        }
}
"""


def check_between(suite, folder, compiler):
    """A handler allocates and frees before the malloc or free of an operator that it has interrupted."""
    with open(f"{folder}/b.cpp", "w", encoding="utf-8") as file:
        file.write(BETWEEN)
    compiler.cpp(folder, ["b.cpp"], "b", "-w", "-O1", "-fno-builtin")
    for argv, wanted in ((["./b"], 0), (["./b", "frees"], 300)):
        trace = f"{folder}/{len(argv)}.trace"
        ran = run(argv, folder, ASANCOL_TRACE=trace, ASANCOL_WHERE="1", ASANCOL_FULL="0")
        found = list(side_of(trace).findings())
        expect((ran.returncode, sum(it.count for it in found)), (0, wanted), " ".join(argv))
        expect({(FORMS[it.kind].class_of(it), it.name) for it in found},
               {(FAMILY, "operator new")} if wanted else set(), " ".join(argv))


def tests(suite, compiler):
    if not compiler.cxx or not compiler.has_sanitizer:
        return
    flags = [*FLAGS_OF_CASES, "-O0"]
    program = suite.built(compiler.cpp, [SOURCE], f"findings-{compiler}", *flags)
    sanitized = suite.built(compiler.cpp, [SOURCE], f"findings-{compiler}-sanitized", *flags, "-fsanitize=address",
                            native=True)
    for name, wanted in CLASSES.items():
        suite.test(f"{compiler} by the recorder: {name}", check_case, program, sanitized, name, wanted)
    suite.test(f"{compiler} by the recorder: the switch", check_switch, program)
    suite.test(f"{compiler} by the recorder: what may be refused", check_refused, program)
    for some in FLAGS:
        suite.test(f"{compiler} by the recorder: replaced operators {' '.join(some)}", check_replaced, compiler, some)
    suite.test(f"{compiler} by the recorder: handed over", check_handed_over, compiler)
    suite.test(f"{compiler} by the recorder: between an operator and its malloc", check_between, compiler)
    for is_native, some in ((False, []), (True, []), (True, ["-static-libstdc++"])):
        name = " ".join(["plain"] * is_native + some)
        suite.test(f"{compiler} by the recorder: an opened library {name}", check_opened, compiler, is_native, some)
