"""What settings choose to look for: globals with two definitions, the order of initialisation, and pairs of pointers.
Each is found where AddressSanitizer finds it, and not where it does not."""

import itertools
import os
import re
from typing import Dict, List, Sequence, Tuple

from asancol_report.by_recorder import FORMS
from support import Compiler, Suite, expect, reports, run, side_of, write
from testing.side import Side

ON = {"ASANCOL_TRACE": "t.trace", "ASANCOL_WHERE": "1"}
SAID = re.compile(r"SUMMARY: AddressSanitizer: ([\w-]+)")


def class_said(folder: str, program: str, options: str) -> str:
    """The class that AddressSanitizer says; or nothing."""
    ran = run([program], folder, ASAN_OPTIONS=f"detect_leaks=0:{options}")
    found = SAID.search(ran.stderr.decode())
    return found[1] if found else ""


def found_in(folder: str, program: str, **settings: str) -> List[str]:
    """What the recorder has found, in words."""
    ran = run([program], folder, **ON, **settings)
    expect(ran.stderr, b"", "what the program says")
    side: Side = side_of(f"{folder}/t.trace")
    run(["rm", "t.trace", "t.trace.where"], folder)
    return [f"{FORMS[it.kind].class_of(it)}: {FORMS[it.kind].words(it)}" for it in side.findings()]


TWICE = "odr-violation: global 'shared' of {0} bytes at {1}, and of {2} bytes at {3}"
DEFINED = {
    "one_c": "int shared[10];\nstatic int alone[3];\nint hidden[7];\nint in_library(void);\n"
             "int main(void) { return in_library() + shared[0] + alone[1] + hidden[2]; }\n",
    "two_c": "static int alone[3];\nint __attribute__((visibility(\"hidden\"))) hidden[9];\n"
             "int shared[SIZE];\nint in_library(void) { return shared[1] + alone[2] + hidden[3]; }\n",
}


def check_definitions(suite: Suite, folder: str, compiler: Compiler, size: int, settings: Tuple[str, int]) -> None:
    """A global that the program and its library define; not static ones, and not a hidden one."""
    write(folder, **DEFINED)
    setting, level = settings
    for name, native, flags in (("recorded", False, ()), ("sanitized", True, ("-fsanitize=address",))):
        compiler.c(folder, ["two.c"], f"{folder}/lib{name}.so", "-fPIC", "-shared", f"-DSIZE={size}", *flags,
                   native=native)
        compiler.c(folder, ["one.c", f"./lib{name}.so"], f"{folder}/{name}", *flags, native=native)
    said = class_said(folder, "./sanitized", f"detect_odr_violation={level}")
    found = found_in(folder, "./recorded", **({setting: str(level)} if setting else {}))
    expect(bool(found), bool(said), f"{found}, {said}")
    both = sorted([(40, "one.c:1"), (size * 4, "two.c:3")], key=lambda it: it[1])
    orders = [TWICE.format(*one, *other) for one, other in (both, reversed(both))]
    expect([it in orders for it in found], [True] * bool(said), found)


# Two libraries that define a global: by which flags each of them does.
PROTECTED = ("-DSEEN=__attribute__((visibility(\"protected\")))",)
LIBRARIES: Dict[str, Tuple[Sequence[str], Sequence[str]]] = {
    "default": ((), ()),
    "symbolic": (("-Wl,-Bsymbolic",), ("-Wl,-Bsymbolic",)),
    "first symbolic": (("-Wl,-Bsymbolic",), ()),
    "second symbolic": ((), ("-Wl,-Bsymbolic",)),
    "protected": (PROTECTED, PROTECTED),
    "first protected": (PROTECTED, ()),
    "second protected": ((), PROTECTED),
    "versions": (("-Wl,--version-script=one.map",), ("-Wl,--version-script=two.map",)),
    "one version": (("-Wl,--version-script=one.map",), ("-Wl,--version-script=one.map",)),
    "weak": (("-DSEEN=__attribute__((weak))",), ()),
}


def check_libraries(suite: Suite, folder: str, compiler: Compiler, case: str) -> None:
    """A global of two libraries is one if both have the same by its name, and else one of each."""
    names = "global: shared; get_*; __odr*;"
    write(folder, one_map=f"ONE {{ {names} }};\n", two_map=f"TWO {{ {names} }};\n",
          library_c="#ifndef SEEN\n#define SEEN\n#endif\nSEEN int shared[10];\nint GET(void) { return shared[1]; }\n",
          main_c="int get_one(void), get_two(void);\nint main(void) { return get_one() + get_two(); }\n")
    for name, native, flags in (("recorded", False, ()), ("sanitized", True, ("-fsanitize=address",))):
        for which, own in zip(("one", "two"), LIBRARIES[case]):
            compiler.c(folder, ["library.c"], f"{folder}/lib{name}-{which}.so", "-fPIC", "-shared",
                       f"-DGET=get_{which}", *own, *flags, native=native)
        compiler.c(folder, ["main.c", f"./lib{name}-one.so", f"./lib{name}-two.so"], f"{folder}/{name}", *flags,
                   native=native)
    said, found = class_said(folder, "./sanitized", "detect_odr_violation=2"), found_in(folder, "./recorded")
    expect([it.split(":")[0] for it in found], [said] * bool(said), f"{found}, {said}")


FIRST = """
#include <cstdio>
extern int other;
int mine = other + 1;
int good = 3;
int main() { std::printf("%d\\n", mine + other); }
"""
SECOND = """
#include <cstdlib>
extern int good;
int make() { return std::atoi("5") + good; }
int other = make();
"""


def check_order(suite: Suite, folder: str, compiler: Compiler, names: Sequence[str], level: int) -> None:
    write(folder, first_cpp=FIRST, second_cpp=SECOND)
    compiler.cpp(folder, names, f"{folder}/recorded", "-O0")
    compiler.cpp(folder, names, f"{folder}/sanitized", "-O0", "-fsanitize=address", native=True)
    options = "strict_init_order=1" if level > 1 else f"check_initialization_order={level}"
    said = class_said(folder, "./sanitized", options)
    found = found_in(folder, "./recorded", ASANCOL_INIT_ORDER=str(level))
    expect(found, [], "findings without an event")
    run(["./recorded"], folder, **ON, ASAN_OPTIONS=options)
    side = side_of(f"{folder}/t.trace")
    status, lines = reports(suite.asancol, f"{folder}/t.trace")[:2]
    expect(status, int(bool(said)), "the status of the checker")
    # The class by the shadow is that of reports; the checker has the coarse one.
    expect((len(lines), [it.split()[-1] for it in lines]), (bool(said), ["global-buffer-overflow"] * bool(said)), lines)
    shades = {it.shadow[(it.start - it.shadow_start) // 8] for it in map(side.fault, range(1, len(lines) + 1)) if it}
    expect(shades, {0xF6} if said else set(), "what the shadow had")


EXITS = """
#include <cstdio>
#include <cstdlib>
extern int other;
struct Last { ~Last() { std::printf("%d\\n", other); } } last;
struct First { First() { std::exit(other != 0 ? 3 : 2); } } first;
int main() { return 4; }
"""
HIDDEN = """
#include <cstdlib>
int make() { return std::atoi("5"); }
int other = make();
"""


def check_order_at_exit(suite: Suite, folder: str, compiler: Compiler) -> None:
    """An initialiser that exits ends the check: what destructors access then is no mistake. Before that it is."""
    write(folder, first_cpp=EXITS, second_cpp=HIDDEN, good_cpp=EXITS.replace("other != 0 ? 3 : 2", "3"))
    for name, count in ("first.cpp", 1), ("good.cpp", 0):
        compiler.cpp(folder, [name, "second.cpp"], f"{folder}/recorded", "-O0")
        compiler.cpp(folder, [name, "second.cpp"], f"{folder}/sanitized", "-O0", "-fsanitize=address", native=True)
        said = class_said(folder, "./sanitized", "strict_init_order=1")
        expect(said, "initialization-order-fiasco" * count, f"{name}: AddressSanitizer")
        expect(run(["./recorded"], folder, **ON, ASANCOL_INIT_ORDER="2").returncode, 3 - count, "the status")
        expect(len(reports(suite.asancol, f"{folder}/t.trace")[1]), count, f"{name}: reports")
        run(["rm", "t.trace", "t.trace.where"], folder)


OPENS = """
#include <cstdlib>
#include <dlfcn.h>
int mine = std::atoi("5");
int value() { return mine; }
int main() { return dlopen("./library.so", RTLD_NOW) != nullptr ? value() : 1; }
"""


def check_order_at_dlopen(suite: Suite, folder: str, compiler: Compiler) -> None:
    """The strict order ends once a library is opened: its files may use the program's."""
    write(folder, main_cpp=OPENS, library_cpp="int value(); int its = value();")
    compiler.cpp(folder, ["library.cpp"], f"{folder}/library.so", "-O0", "-fPIC", "-shared")
    compiler.cpp(folder, ["main.cpp"], f"{folder}/recorded", "-O0", "-rdynamic", "-ldl")
    expect(run(["./recorded"], folder, **ON, ASANCOL_INIT_ORDER="2").returncode, 5, "the status")
    expect(reports(suite.asancol, f"{folder}/t.trace")[1], [], "reports")


STARTS_THREAD = """
#include <pthread.h>
#include <cstdlib>
int mine = std::atoi("5");
static void *look(void *) { return &mine; }
struct starter {
    pthread_t made;
    starter() { pthread_create(&made, nullptr, look, nullptr); }
    ~starter() { pthread_join(made, nullptr); }
} one;
int main() { return mine; }
"""


def check_order_with_threads(suite: Suite, folder: str, compiler: Compiler) -> None:
    """The strict order ends once a thread was started, which may look at any file's globals."""
    write(folder, main_cpp=STARTS_THREAD, second_cpp="extern int mine; int its = mine;")
    compiler.cpp(folder, ["main.cpp", "second.cpp"], f"{folder}/recorded", "-O0", "-pthread")
    expect(run(["./recorded"], folder, **ON, ASANCOL_INIT_ORDER="2").returncode, 5, "the status")
    expect(reports(suite.asancol, f"{folder}/t.trace")[1], [], "reports")


JOINS_THREAD = """
#include <pthread.h>
#include <cstdlib>
extern int other;
static void *look(void *) { return (void *)(long)other; }
struct starter {
    void *found;
    starter() { pthread_t made; pthread_create(&made, nullptr, look, nullptr); pthread_join(made, &found); }
} one;
int mine = std::atoi("5") + (long)one.found + other;
int main() { return mine; }
"""


def check_order_within_file(suite: Suite, folder: str, compiler: Compiler) -> None:
    """A thread that an initialiser creates looks at another file's globals, as may the rest of this file: no mistake
    once these have their values, and in the strict order never."""
    write(folder, main_cpp=JOINS_THREAD, other_cpp="#include <cstdlib>\nint other = std::atoi(\"3\");")
    for names, strict in itertools.product((("other.cpp", "main.cpp"), ("main.cpp", "other.cpp")), (False, True)):
        compiler.cpp(folder, names, f"{folder}/recorded", "-O0", "-pthread")
        compiler.cpp(folder, names, f"{folder}/sanitized", "-O0", "-pthread", "-fsanitize=address", native=True)
        order = "check_initialization_order=1" + ":strict_init_order=1" * strict
        said = class_said(folder, "./sanitized", order)
        status = 11 if names[0] == "other.cpp" else 5
        expect(run(["./recorded"], folder, **ON, ASAN_OPTIONS=order).returncode, status, "the status")
        count = len(reports(suite.asancol, f"{folder}/t.trace")[1])
        run(["rm", "t.trace", "t.trace.where"], folder)
        expect((count > 0, said), (bool(said), "initialization-order-fiasco" * (status == 5 and not strict)),
               f"{names}, {order}")


def check_long_path(_: Suite, folder: str, compiler: Compiler) -> None:
    """If a global's file has a path without room, its name alone is said, whatever is cut."""
    name = "a-file-with-a-longer-name.c"
    for length in (20, *range(60, 130, 7), 250):
        deep = f"{folder}/{length}/{'d' * (length // 2)}/{'e' * (length // 2)}"
        os.makedirs(deep)
        write(deep, table_c="int table[4];\nint main(int n, char **v) { return ((volatile int *)table)[n + 3]; }")
        os.rename(f"{deep}/table.c", f"{deep}/{name}")
        compiler.c(folder, [f"{deep}/{name}"], f"{folder}/recorded", "-w")
        run(["./recorded"], folder, **ON)
        fault = side_of(f"{folder}/t.trace").fault(1)
        whole = f"table {deep}/{name}:1"
        expect(fault.name if fault else "", whole if len(whole) < 120 else f"table {name}:1", f"{length}")
        run(["rm", "t.trace", "t.trace.where"], folder)


PAIRS = """
#include <stdio.h>
#include <stdlib.h>
static char one[5000], other[5000];
static int compare(char *volatile left, char *volatile right) { return left < right; } // compare
static long subtract(char *volatile left, char *volatile right) { return left - right; } // subtract
int main(int count, char **argv)
{
    char on_stack[100], *block = malloc(5000), *second = malloc(5000);
    char *const lefts[] = {block, block, block, one, one, one, on_stack, on_stack, block, NULL, block, block};
    char *const rights[] = {block + 4999, block + 5000, second, one + 4999, one + 5000, other, on_stack + 99,
                            (char *)&count, on_stack, block, NULL, block};
    int at = atoi(argv[1]);
    compare(lefts[at], rights[at]);
    subtract(rights[at], lefts[at]);
    return 0;
}
"""
PAIR_COUNT = 12


def check_pairs(suite: Suite, folder: str, compiler: Compiler, level: int) -> None:
    """Blocks, globals, variables on the stack, and null: with the class and both lines."""
    write(folder, pairs_c=PAIRS)
    flags: Tuple[str, ...] = ("-fsanitize=pointer-compare,pointer-subtract",)
    if compiler.name == "clang":
        flags = ("-mllvm", "-asan-detect-invalid-pointer-pair")
    compiler.c(folder, ["pairs.c"], f"{folder}/recorded", "-O0", *flags)
    compiler.c(folder, ["pairs.c"], f"{folder}/sanitized", "-O0", "-fsanitize=address", *flags, native=True)
    seen = 0
    for at in range(PAIR_COUNT):
        ran = run(["./sanitized", str(at)], folder,
                  ASAN_OPTIONS=f"detect_leaks=0:detect_invalid_pointer_pairs={level}")
        said = SAID.search(ran.stderr.decode())
        run(["./recorded", str(at)], folder, **ON, ASANCOL_POINTER_PAIRS=str(level))
        side = side_of(f"{folder}/t.trace")
        run(["rm", "t.trace", "t.trace.where"], folder)
        found = [(FORMS[it.kind].class_of(it), side.lines(it.place)[0][1].split(":")[1]) for it in side.findings()]
        wanted = [("invalid-pointer-pair", "5"), ("invalid-pointer-pair", "6")] if said else []
        expect(found, wanted, f"pair {at}: {ran.stderr.decode()}")
        seen += bool(said)
    expect((seen > 3) == (level > 0), True, f"{seen} that AddressSanitizer finds")


def tests(suite: Suite, compiler: Compiler) -> None:
    if not compiler.has_sanitizer:
        return
    for size, settings in ((20, ("", 2)), (10, ("", 2)), (10, ("ASANCOL_ODR", 1)), (20, ("ASANCOL_ODR", 1)),
                           (20, ("ASANCOL_ODR", 0))):
        suite.test(f"{compiler} two definitions: {size} {'='.join(map(str, settings))}", check_definitions, compiler,
                   size, settings)
    for case in LIBRARIES:
        suite.test(f"{compiler} two libraries: {case}", check_libraries, compiler, case)
    for level in (0, 1, 2):
        suite.test(f"{compiler} pairs of pointers: {level}", check_pairs, compiler, level)
        if compiler.cxx:
            for names in (("first.cpp", "second.cpp"), ("second.cpp", "first.cpp")):
                suite.test(f"{compiler} order of initialisation: {level} {names[0]}", check_order, compiler, names,
                           level)
    suite.test(f"{compiler} a global in a long path", check_long_path, compiler)
    if compiler.cxx:
        suite.test(f"{compiler} order of initialisation: exit", check_order_at_exit, compiler)
        suite.test(f"{compiler} order of initialisation: dlopen", check_order_at_dlopen, compiler)
        suite.test(f"{compiler} order of initialisation: threads", check_order_with_threads, compiler)
        suite.test(f"{compiler} order of initialisation: in a file", check_order_within_file, compiler)
