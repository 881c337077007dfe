"""Tests of inline checks: the same faults as with a call for each access, and as AddressSanitizer's,
wherever the system puts a program, and with everything that leaves frames without their returns."""

import os
import re
from typing import Any, List, Sequence, Tuple

from support import CC, TESTS, Compiler, Suite, Trace, expect, leave_out, placed, reports, run, write
from testing.programs import NO_SETTINGS

# The kind of an access or free, its class, and its source line.
Fault = Tuple[str, str, str]

LEVELS = ("-O0", "-O1", "-O2", "-O3")


def make(compiler: Compiler, folder: str, source: str, program: str, *flags: str, **settings: Any) -> None:
    build = compiler.cpp if source.endswith(".cpp") else compiler.c
    build(folder, [f"{TESTS}/inline/{source}"], program, "-w", "-pthread", *flags, **settings)


def faults_of(suite: Suite, folder: str, program: str) -> Tuple[List[Fault], int]:
    """The faults that the lines of a run have, in order, and the status of the check."""
    trace = f"{program}.trace"
    ran = run([program], folder, ASANCOL_TRACE=trace, ASANCOL_WHERE="1")
    expect((ran.returncode, ran.stderr), (0, b""), program)
    said, status = placed(suite.asancol, trace)
    expect(Trace(trace).is_closed, True, trace)
    os.unlink(trace)
    os.unlink(f"{trace}.where")
    return [(it.kind, it.wrong, it.line) for it in said], status


# Programs whose faults are the same in each run.
SAME = ("three.c", "globals.c", "named.c", "stacks.c", "functions.c", "widths.c", "handlers.c", "containers.cpp")

# A hole inside a copy of a structure, of which GCC checks the first and the last byte alone, as it does for
# AddressSanitizer: the source, and how many faults it hides.
HOLES = {("gcc", "widths.c"): 2}


def check_same(suite: Suite, folder: str, compiler: Compiler, source: str, level: str) -> None:
    """Inline checks find what a call for each access finds, and nothing else."""
    for program, setting in (("inline", "0"), ("every", "1")):
        make(compiler, folder, source, f"{folder}/{program}", level, ASANCOL_ALL=setting)
    found, status = faults_of(suite, folder, f"{folder}/inline")
    wanted, _ = faults_of(suite, folder, f"{folder}/every")
    expect(status, 1, "status")
    expect(set(found) - set(wanted), set(), "what only inline checks find")
    missed = set(wanted) - set(found)
    expect(len(missed), HOLES.get((compiler.name, source), 0), f"what only a call for each access finds: {missed}")


# How many reports there are at -O0, where addresses vary from run to run or events are many.
COUNTS = {"three.c": 3, "scopes.c": 6, "handlers.c": 8, "threads.cpp": 22, "load.cpp": 30}


def check_count(suite: Suite, folder: str, compiler: Compiler, source: str, flags: Sequence[str]) -> None:
    make(compiler, folder, source, f"{folder}/counted", "-O0", *flags)
    for i in range(3):
        ran = run(["./counted"], folder, ASANCOL_TRACE=f"t{i}.trace")
        expect((ran.returncode, ran.stderr), (0, b""), source)
        _, texts, end = reports(suite.asancol, f"{folder}/t{i}.trace")
        expect((len(texts), end.split()[0]), (COUNTS[source], "closed"), f"{source}: {texts}")


CLASS = re.compile(r"ERROR: AddressSanitizer: ([a-z-]+) on address .*?\n(READ|WRITE) of size (\d+)", re.S)
PLACE = re.compile(r"^    #(\d+) \S+ in (.+) \S*?([^/\s:]+:\d+)(?::\d+)?$", re.M)

# What the two call the same fault.
ALIKE = {
    "stack-buffer-underflow": "stack-buffer-overflow",
    "stack-use-after-scope": "stack-buffer-overflow",
    "dynamic-stack-buffer-overflow": "stack-buffer-overflow",
}


def by_sanitizer(text: str) -> List[Fault]:
    """What AddressSanitizer reports, with the line of the first frame that has one of the program's."""
    found = []
    for error in CLASS.finditer(text):
        wrong, kind, _ = error.groups()
        for place in PLACE.finditer(text, error.end()):
            if place.group(3).split(":")[0].endswith((".c", ".cpp")):
                access = "load" if kind == "READ" else "store"
                found.append((access, ALIKE.get(wrong, wrong), place.group(3)))
                break
    return found


def check_beside(suite: Suite, folder: str, compiler: Compiler, source: str, level: str) -> None:
    """AddressSanitizer, where it goes on after a report, names no line that is not named here."""
    make(compiler, folder, source, f"{folder}/inline", level)
    flags = ["-fsanitize=address", "-fsanitize-recover=address"]
    make(compiler, folder, source, f"{folder}/sanitized", level, *flags, native=True)
    options = "halt_on_error=0:detect_leaks=0:detect_stack_use_after_return=0"
    text = run(["./sanitized"], folder, ASAN_OPTIONS=options).stderr.decode(errors="replace")
    lines = {place for _, _, place in faults_of(suite, folder, f"{folder}/inline")[0]}
    wanted = by_sanitizer(text)
    expect(len(wanted) > 2, True, "that AddressSanitizer finds something")
    expect([it for it in wanted if it[2] not in lines], [], "what AddressSanitizer alone finds")


def check_layouts(suite: Suite, folder: str, compiler: Compiler) -> None:
    """Wherever the system puts programs, libraries and stacks, and however they are linked."""
    make(compiler, folder, "three.c", f"{folder}/three", "-O0")
    runs = {
        "old": "setarch -L ./three",
        "not at random": "setarch -R ./three",
        "unlimited stack": "ulimit -s unlimited; ./three",
    }
    for flag in ("-no-pie", "-static", "-static-pie", "-flto"):
        if flag == "-flto" and compiler.name == "clang":
            continue
        make(compiler, folder, "three.c", f"{folder}/three{flag}", "-O0", flag)
        runs[flag] = f"./three{flag}"
    for name, words in runs.items():
        ran = run(["sh", "-c", words], folder, ASANCOL_TRACE=f"{name}.trace")
        expect((ran.returncode, ran.stderr), (0, b""), name)
        expect(len(reports(suite.asancol, f"{folder}/{name}.trace")[1]), 3, name)


def check_mixed(suite: Suite, folder: str, compiler: Compiler) -> None:
    """Objects with inline checks and with a call for each access, in one program and over a shared object."""
    write(folder, one_c="int one(volatile char *p) { return p[8]; }\n")
    write(folder, two_c="int one(volatile char *);\nint two(volatile char *p) { p[8] = 1; return one(p); }\n")
    declared = "#include <stdlib.h>\nint two(volatile char *);\n"
    write(folder, main_c=declared + "int main(void) { char *p = malloc(8); two(p); free(p); }\n")
    compiler.c(folder, ["one.c"], f"{folder}/one.o", "-c", "-fPIC", ASANCOL_ALL="1")
    compiler.c(folder, ["main.c", "two.c", "one.o"], f"{folder}/mixed")
    compiler.c(folder, ["one.o"], f"{folder}/libone.so", "-shared")
    compiler.c(folder, ["main.c", "two.c", "./libone.so"], f"{folder}/shared")
    for program in ("mixed", "shared"):
        run([f"./{program}"], folder, ASANCOL_TRACE=f"{program}.trace")
        status, texts, _ = reports(suite.asancol, f"{folder}/{program}.trace")
        wanted = ["store 1 +8 heap-buffer-overflow", "load 1 +8 heap-buffer-overflow"]
        expect((status, texts), (1, wanted), program)


def check_wild(suite: Suite, folder: str, compiler: Compiler) -> None:
    """A wild pointer faults as it does without a recorder. Only what the system says of the address may differ."""
    make(compiler, folder, "wild.c", f"{folder}/wild", "-O0")
    make(compiler, folder, "wild.c", f"{folder}/native", "-O0", native=True)
    recorded, native = (run([it], folder).stdout.decode().splitlines() for it in ("./wild", "./native"))
    expect([line.split()[:2] for line in recorded], [line.split()[:2] for line in native], "faults")
    expect(len(native), 11, "addresses")


def check_no_shadow(suite: Suite, folder: str, compiler: Compiler) -> None:
    """Without room for the shadow a program ends at once, with what to do; one that is native runs."""
    make(compiler, folder, "three.c", f"{folder}/three", "-O0")
    argv = ["sh", "-c", "ulimit -v 1000000; exec ./three"]
    for settings in (NO_SETTINGS, {"ASANCOL_TRACE": "t.trace"}):
        ran = run(argv, folder, **settings)
        expect((ran.returncode, ran.stderr.count(b"\n")), (127, 1), ran.stderr)
        for piece in (b"asancol: ", b"ulimit -v", b"without asancol-cc"):
            expect(piece in ran.stderr, True, ran.stderr)
    expect(os.path.exists(f"{folder}/t.trace"), False, "a trace")


POISON = """
#include <sanitizer/asan_interface.h>
#include <stdlib.h>
#include <sys/wait.h>
#include <unistd.h>
int main(void) {
    char *volatile p = malloc(64);
    volatile char local[64];
    __asan_poison_memory_region(p + 16, 20);
    __asan_poison_memory_region((void *)(local + 16), 16);
    if (fork() == 0) {
        ((volatile char *)p)[20] = 1;
        ((volatile char *)p)[36] = 1;
        local[20] = 1;
        __asan_unpoison_memory_region(p, 64);
        ((volatile char *)p)[20] = 1;
        _exit(!(__asan_region_is_poisoned(p, 64) == 0));
    }
    int status;
    wait(&status);
    if (__asan_region_is_poisoned(p, 64) != p + 16 || !__asan_address_is_poisoned((void *)(local + 16)))
        return 8;
    __asan_unpoison_memory_region((void *)(local + 16), 16);
    return status; }
"""


def check_poison_after_fork(suite: Suite, folder: str, compiler: Compiler) -> None:
    """What the parent has poisoned, in the heap and elsewhere, is so in its child's trace."""
    write(folder, poison_c=POISON)
    for flags in ((), ["-static"]):
        compiler.c(folder, ["poison.c"], f"{folder}/poison", "-w", *flags)
        ran = run(["./poison"], folder, ASANCOL_TRACE="%p.trace")
        expect((ran.returncode, ran.stderr), (0, b""), "the program")
        seen = []
        for name in sorted(os.listdir(folder)):
            if name.endswith(".trace"):
                seen.append(sorted(text.split()[-1] for text in reports(suite.asancol, f"{folder}/{name}")[1]))
                os.unlink(f"{folder}/{name}")
        expect(sorted(seen), [[], ["use-after-poison"] * 2], f"reports {flags}")
        expect(run(["./poison"], folder).returncode, 0, "where nothing is recorded")


BEFORE = """
extern int first[3];
int other[3] = {1};
int main(void) {
    other[1] = ((volatile int *)first)[-1];
    return 0; }
"""


def check_before_globals(suite: Suite, folder: str, compiler: Compiler) -> None:
    """Before the first global of a file lies the table that the compiler makes for the file before: a redzone too."""
    write(folder, before_c=BEFORE, first_c="int first[3] = {1};\n")
    for level in LEVELS:
        compiler.c(folder, ["before.c", "first.c"], f"{folder}/before", "-w", level)
        found = faults_of(suite, folder, f"{folder}/before")
        expect(found, ([("load", "global-buffer-overflow", "before.c:5")], 1), level)


LISTED = "int left_out(int *p) { return p[1]; }\nint looked_at(int *p) { return p[1]; }\n"


def check_listed(suite: Suite, folder: str, compiler: Compiler) -> None:
    """Functions of a list that Clang is given get no checks."""
    write(folder, listed_c=LISTED, list_txt="[address]\nfun:left_*\n")
    main = "#include <stdlib.h>\nint left_out(int *), looked_at(int *);\n"
    write(folder, main_c=main + "int main(void) { int *p = malloc(4); return (left_out(p) ^ looked_at(p)) & 0; }\n")
    for option in ("-fsanitize-ignorelist=list.txt", "-fsanitize-blacklist=list.txt"):
        compiler.c(folder, ["listed.c", "main.c", option], f"{folder}/listed", "-w")
        found = faults_of(suite, folder, f"{folder}/listed")
        expect(found, ([("load", "heap-buffer-overflow", "listed.c:2")], 1), option)


TAKEN_LIBRARY = "int both[4] = {1}, own[4] = {1};\nint in_library(int i) { return both[0] + own[i]; }\n"
TAKEN_PROGRAM = """
int both[4] = {1}, alone[4] = {1};
int in_library(int i);
volatile int sink, four = 4;
int main(void) {
    sink = in_library(four);
    sink = alone[four];
    return 0; }
"""


def check_taken_globals(suite: Suite, folder: str, compiler: Compiler) -> None:
    """A global of a shared object in whose place the program's is: all others of both tables have their redzones."""
    write(folder, library_c=TAKEN_LIBRARY, program_c=TAKEN_PROGRAM)
    wanted = [("load", "global-buffer-overflow", line) for line in ("library.c:2", "program.c:7")]
    compiler.c(folder, ["library.c"], f"{folder}/liblibrary.so", "-shared", "-fPIC")
    compiler.c(folder, ["program.c", "./liblibrary.so"], f"{folder}/program")
    expect(faults_of(suite, folder, f"{folder}/program"), (wanted, 1))


# What a run of left.c reports: the class of each line.
LEFT = {
    "by_vfork": [],
    "by_library": [],
    "by_mapping": [],
    "by_deep_jump": [],
    "in_block": ["stack-buffer-overflow", "heap-buffer-overflow", "heap-use-after-free"],
    "forked": [],
    "after_exec": ["stack-buffer-overflow"],
    "after_exit": ["stack-buffer-overflow"],
    "after_exec_in_vain": ["stack-buffer-overflow"],
    "after_nested": ["stack-buffer-overflow"],
    "after_exec_in_thread": ["stack-buffer-overflow"],
    "after_exec_in_handler": ["stack-buffer-overflow"] * 2,
    "after_exec_in_object": ["stack-buffer-overflow"],
}


def check_left(suite: Suite, folder: str, compiler: Compiler, *options: str) -> None:
    """Frames that are left without their returns make no report, and hide none of a block behind them."""
    inline = f"{TESTS}/inline"
    compiler.c(folder, [f"{inline}/library.c"], f"{folder}/liblibrary.so", "-shared", "-fPIC", native=True)
    flags = [*options, "-w", "-D_FILE_OFFSET_BITS=64"]
    compiler.c(folder, [f"{inline}/left_object.c"], f"{folder}/libobject.so", "-shared", "-fPIC", *flags)
    sources = [f"{inline}/left.c", "./liblibrary.so", "./libobject.so"]
    compiler.c(folder, sources, f"{folder}/left", *flags, "-pthread")
    for name, wanted in LEFT.items():
        ran = run(["./left", name], folder, ASANCOL_TRACE=f"{name}.trace")
        expect((ran.returncode, ran.stderr), (0, b""), name)
        for trace in [it for it in os.listdir(folder) if it.startswith(f"{name}.") and it.endswith("trace")]:
            _, texts, end = reports(suite.asancol, f"{folder}/{trace}")
            expect(([it.split()[-1] for it in texts], end.split()[0]), (wanted, "closed"), f"{trace}: {texts[:3]}")


# What each run of vain.c reports.
OF_VAIN = ["heap-buffer-overflow", "stack-buffer-overflow", "global-buffer-overflow", "use-after-poison"]


def check_vain(suite: Suite, folder: str, compiler: Compiler) -> None:
    """Calls that the system refuses answer as alone, and no redzone and no poison is lost by them."""
    make(compiler, folder, "vain.c", f"{folder}/vain", "-O0")
    make(compiler, folder, "vain.c", f"{folder}/alone", "-O0", native=True)
    for name in run(["./alone"], folder).stdout.decode().split():
        ran = run(["./vain", name], folder, ASANCOL_TRACE=f"{name}.trace")
        expect((ran.returncode, ran.stdout), (0, run(["./alone", name], folder).stdout), name)
        wrong = [text.split()[-1] for text in reports(suite.asancol, f"{folder}/{name}.trace")[1]]
        expect(wrong, OF_VAIN, name)


# What a run of large.c prints, as it does alone, and how many reports of a class it has.
OF_LARGE = {
    "thread_local_memory": ("0\n" * 2, {"use-after-poison": 4}),
    "alignments": ("".join(f"{shift}: 0 1 1\n1 1 1\n" for shift in range(29, 34)),
                   {"heap-buffer-overflow": 5, "heap-use-after-free": 5}),
    "arguments": ("1 2 3 4 5 6 7\n" * 2 + "8 9 10 11 12 13 14\n15 16 17 18 19 20 21\n22 23 24 0 0 0 0\n",
                  {"stack-buffer-overflow": 1}),
    "below_the_shadow": ("1\n-56 50\n", {"use-after-poison": 2}),
}


def check_large(suite: Suite, folder: str, compiler: Compiler) -> None:
    """Larger sizes and numbers than usual work as they do alone, and are checked."""
    make(compiler, folder, "large.c", f"{folder}/large", "-O0")
    for name, (printed, wanted) in OF_LARGE.items():
        ran = run(["./large", name], folder, ASANCOL_TRACE=f"{name}.trace")
        expect((ran.returncode, ran.stdout.decode()), (0, printed), f"{name}: {ran.stderr!r}")
        wrong = [text.split()[-1] for text in reports(suite.asancol, f"{folder}/{name}.trace")[1]]
        expect({it: wrong.count(it) for it in wrong}, wanted, name)


# How many reports a run of switches.c has, if any.
SWITCHES = {
    "fault_in_coroutine": 2,
    "fault_in_handler": 1,
    "fault_in_thread": 1,
    "fault_in_chief": 1,
    "fault_after_jump_in_coroutine": 1,
    "fault_in_own_switch": 1,
    "fault_in_own_coroutine": 2,
}


def check_switches(suite: Suite, folder: str, compiler: Compiler, level: str) -> None:
    """Stacks of the program's own, in arrays, blocks and mappings, which are arrays again after they were left."""
    make(compiler, folder, "switches.c", f"{folder}/switches", level)
    names = run(["./switches"], folder).stdout.decode().split()
    expect([name for name in SWITCHES if name not in names], [], "runs")
    said = {}
    for name in names:
        for where in "lshm":
            ran = run(["./switches", name, where], folder, ASANCOL_TRACE="t.trace")
            _, texts, end = reports(suite.asancol, f"{folder}/t.trace")
            os.unlink(f"{folder}/t.trace")
            status = (ran.returncode, ran.stderr, end.split()[0])
            expect(status, (0, b"", "closed"), f"{name} {where}")
            wanted = ["store 4 stack-buffer-overflow"] * SWITCHES.get(name, 0)
            if [re.sub(r" \+\d+", "", text) for text in texts] != wanted:
                said[f"{name} {where}"] = (len(texts), texts[:2])
    expect(said, {}, "other reports")


# How many reports a run of stacks.cpp has, and how many more if the stack is static.
STACKS = {
    "faults_in_context": (2, 0),
    "faults_beside_context": (3, 2),
    "faults_between_jumps": (5, 2),
    "left_by_jump": (0, 0),
    "left_by_builtin": (2, 2),
    "left_by_builtin_on_own": (2, 2),
    "faults_on_own": (4, 2),
    "faults_after_jump_out": (2, 2),
    "faults_of_others": (2, 0),
    "faults_after_handler": (2, 2),
    "faults_after_disarmed": (2, 2),
    "faults_after_child": (2, 2),
    "faults_in_many": (1500, 0),
}


def check_stacks(suite: Suite, folder: str, compiler: Compiler, level: str, *flags: str) -> None:
    """Exceptions, jumps and calls that do not return, on stacks of the program's own: no redzone of a frame that goes
    on is lost, and none beside the stack, and none is left over. Also where mappings lie near the first thread's stack.
    """
    make(compiler, folder, "stacks.cpp", f"{folder}/stacks", level, *flags)
    said = {}
    for name, (wanted, of_static) in STACKS.items():
        for way in ("s", "h", "m", "m not at random"):
            argv = ["setarch", "-R", "./stacks"] if "not" in way else ["./stacks"]
            ran = run(["timeout", "60", *argv, name, way[0]], folder, ASANCOL_TRACE="t.trace")
            _, texts, end = reports(suite.asancol, f"{folder}/t.trace", most=2000)
            os.unlink(f"{folder}/t.trace")
            expect((ran.returncode, ran.stderr, end.split()[0]), (0, b"", "closed"), f"{name} {way}")
            if len(texts) != wanted + (of_static if way == "s" else 0):
                said[f"{name} {way}"] = (len(texts), texts[:5])
    expect(said, {}, "other reports")


# What a run of fibers.cpp reports.
FIBERS = {
    "throws": ["store 4 stack-buffer-overflow"],
    "gives": [],
    "handler_throws": [],
    "says_its_switches": ["store 4 stack-buffer-overflow"] * 3,
    "generates": ["heap-use-after-free"],
    "of_boost": ["store 4 stack-buffer-overflow"] * 4,
}


def check_fibers(suite: Suite, folder: str, compiler: Compiler) -> None:
    """Exceptions on stacks of the program's own, switches that are said, coroutines of C++20, and Boost.Context."""
    flags = ["-O0", "-std=c++20", "-fnon-call-exceptions"]
    write(folder, header_cpp="#include <boost/context/fiber.hpp>\nint main() {}\n")
    has_boost = run([compiler.cxx, "header.cpp", "-lboost_context"], folder).returncode == 0
    if not has_boost:
        leave_out("Boost.Context is not there")
    write(folder, header_cpp="#include <coroutine>\nint main() { return !__cpp_impl_coroutine; }\n")
    has_coroutines = run([compiler.cxx, *flags, "header.cpp"], folder).returncode == 0
    linked = ["-DOF_BOOST", "-lboost_context"] if has_boost else []
    make(compiler, folder, "fibers.cpp", f"{folder}/fibers", *flags, *linked)
    for name, wanted in FIBERS.items():
        if (name == "of_boost" and not has_boost) or (name == "generates" and not has_coroutines):
            continue
        ran = run(["./fibers", name], folder, ASANCOL_TRACE="t.trace")
        _, texts, end = reports(suite.asancol, f"{folder}/t.trace")
        os.unlink(f"{folder}/t.trace")
        expect((ran.returncode, ran.stderr, end.split()[0]), (0, b"", "closed"), name)
        said = [it.split()[-1] if name == "generates" else it for it in texts]
        expect(said, wanted, name)


def check_sizes(suite: Suite, folder: str, compiler: Compiler) -> None:
    """A function of memory with a size that is a mistake: some of its bad pieces are recorded, and it takes no time."""
    make(compiler, folder, "sizes.c", f"{folder}/sizes", "-O0")
    for argv in ((), ["wrapped"]):
        ran = run(["timeout", "60", "./sizes", *argv], folder, ASANCOL_TRACE=f"t{len(argv)}.trace")
        expect(ran.stderr, b"", argv)
        status, texts, _ = reports(suite.asancol, f"{folder}/t{len(argv)}.trace")
        expect((status, 1 <= len(texts) <= 140), (1, True), f"{argv}: {len(texts)}")


def check_few_records(suite: Suite, folder: str, compiler: Compiler) -> None:
    """Good accesses leave no record, and nothing is recorded of frames and globals that nobody comes near."""
    source = "int numbers[9]; int f(int i) { volatile int a[9]; a[i] = i; return a[i] + numbers[i]; }\n"
    loop = "int main(void) { int s = 0; for (int i = 0; i < 9000; i++) s += f(i % 9); return s == 0; }\n"
    write(folder, few_c=source + loop)
    compiler.c(folder, ["few.c"], f"{folder}/few", "-O0")
    run(["./few"], folder, ASANCOL_TRACE="t.trace")
    expect((len(Trace(f"{folder}/t.trace").events), reports(suite.asancol, f"{folder}/t.trace")[0]), (0, 0), "events")


def check_seldom_calls(suite: Suite, folder: str, compiler: Compiler) -> None:
    """A short function saves no register for the calls that it makes only if an access is bad."""
    write(folder, bump_c="long bump(long *number) { return ++*number; }\nint sum(int *a, int *b) { return *a + *b; }\n")
    run([CC, "-O2", "-S", "bump.c"], folder, ASANCOL_CC=compiler.name)
    with open(f"{folder}/bump.s", encoding="utf-8") as file:
        text = file.read()
    expect("_report_" in text, True, "checks")
    expect(re.findall(r"push\S*\s+%r(?:bx|1[2-5])", text), [], "registers that are saved")


ORDERS = (
    "initialiser later_file priority_200 end_of_priority_200 object end_of_object literal constructor constructor_101"
    " destructor destructor_101 destructor_65000 atexit"
)

# Opens a library with globals and closes it. Then its memory is somebody else's, and has no redzones.
CLOSES = """
#include <dlfcn.h>
#include <string.h>
#include <sys/mman.h>
int main(void) {
    for (int i = 0; i < 3; i++) {
        void *library = dlopen("./liborder.so", RTLD_NOW);
        char *(*find)(void) = (char *(*)(void))dlsym(library, "first_of_globals");
        char *page = (char *)((unsigned long)find() & ~4095ul);
        if (dlclose(library) != 0 || dlopen("./liborder.so", RTLD_NOW | RTLD_NOLOAD) != 0)
            return 1;
        char *mine = mmap(page, 4096, PROT_READ | PROT_WRITE, MAP_PRIVATE | MAP_ANONYMOUS | MAP_FIXED_NOREPLACE, -1, 0);
        if (mine != page)
            return 2;
        for (volatile char *it = mine; it < mine + 4096; it++)
            *it = 1;
        munmap(mine, 4096);
    }
    return 0; }
"""


def check_order(suite: Suite, folder: str, compiler: Compiler, level: str) -> None:
    """Globals have their redzones before the first constructor of a program or a library, and after the last destructor
    of it. If a library was closed, they are gone."""
    make(compiler, folder, "order.cpp", f"{folder}/later.o", level, "-c", "-fPIC", "-DLATER")
    make(compiler, folder, "order.cpp", f"{folder}/order.o", level, "-c", "-fPIC")
    write(folder, main_cpp="int main() { return 0; }\n", closes_c=CLOSES)
    objects = ["order.o", "later.o"]
    compiler.cpp(folder, ["main.cpp", *objects], "program", level)
    compiler.cpp(folder, objects, "liborder.so", "-shared")
    compiler.cpp(folder, ["main.cpp", "-Wl,--no-as-needed", "./liborder.so"], "user", level)
    compiler.c(folder, ["closes.c"], "closes", level, "-w", "-D_GNU_SOURCE")
    for program in ("program", "user"):
        for name in ORDERS.split():
            run([f"./{program}"], folder, ASANCOL_TRACE="t.trace", ORDER=name)
            status, texts, _ = reports(suite.asancol, f"{folder}/t.trace")
            expect((status, [it.split()[-1] for it in texts]), (1, ["global-buffer-overflow"]), f"{program} {name}")
            os.unlink(f"{folder}/t.trace")
    ran = run(["./closes"], folder, ASANCOL_TRACE="t.trace", ORDER="object")
    _, texts, _ = reports(suite.asancol, f"{folder}/t.trace")
    wanted = ["store 1 global-buffer-overflow"] * 3
    expect((ran.returncode, texts), (0, wanted), "after a library was closed")


def tests(suite: Suite, compiler: Compiler) -> None:
    for level in ("-O0", "-O2"):
        suite.test(f"{compiler} inline order {level}", check_order, compiler, level)
    for source in SAME:
        for level in LEVELS:
            suite.test(f"{compiler} inline {source} {level}", check_same, compiler, source, level)
    for source in COUNTS:
        suite.test(f"{compiler} inline count {source}", check_count, compiler, source, [])
    suite.test(f"{compiler} inline count static", check_count, compiler, "scopes.c", ["-static"])
    if compiler.has_sanitizer:
        for source in ("three.c", "globals.c", "named.c", "stacks.c", "containers.cpp"):
            suite.test(f"{compiler} inline beside {source}", check_beside, compiler, source, "-O0")
    for level in ("-O0", "-O2"):
        suite.test(f"{compiler} inline left {level}", check_left, compiler, level)
    for way in ("runtime", "always") if compiler.name == "clang" else ("runtime",):
        option = f"-fsanitize-address-use-after-return={way}"
        suite.test(f"{compiler} inline left, fake frames {way}", check_left, compiler, "-O1", option)
    suite.test(f"{compiler} inline switches", check_switches, compiler, "-O1")
    suite.test(f"{compiler} inline refused calls", check_vain, compiler)
    suite.test(f"{compiler} inline large", check_large, compiler)
    if compiler.cxx:
        suite.test(f"{compiler} inline fibers", check_fibers, compiler)
        for level in ("-O0", "-O2"):
            suite.test(f"{compiler} inline other stacks {level}", check_stacks, compiler, level)
    suite.test(f"{compiler} inline seldom calls", check_seldom_calls, compiler)
    suite.test(f"{compiler} inline sizes", check_sizes, compiler)
    suite.test(f"{compiler} inline layouts", check_layouts, compiler)
    suite.test(f"{compiler} inline mixed", check_mixed, compiler)
    suite.test(f"{compiler} inline wild", check_wild, compiler)
    suite.test(f"{compiler} inline no shadow", check_no_shadow, compiler)
    suite.test(f"{compiler} inline poison", check_poison_after_fork, compiler)
    suite.test(f"{compiler} inline before globals", check_before_globals, compiler)
    suite.test(f"{compiler} inline taken globals", check_taken_globals, compiler)
    if compiler.name == "clang":
        suite.test(f"{compiler} inline ignore list", check_listed, compiler)
    suite.test(f"{compiler} inline few records", check_few_records, compiler)
