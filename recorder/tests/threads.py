"""Which threads have made an access, a malloc and a free, and which have created these: as AddressSanitizer has it."""

import glob
import os
import re
import signal
from typing import Dict, List, Optional, Tuple

from support import RECORDER, TESTS, TOP, Compiler, Suite, expect, run, write
from testing import Failure
from testing.lines import lines_of
from testing.side import Side, Thread, side_of

UNKNOWN = (1 << 32) - 1

# The threads of an access, a malloc and a free; and who has created whom.
Threads = Tuple[str, str, str]
Creators = Dict[str, str]


def name_of(side: Side, number: int) -> str:
    if number == UNKNOWN:
        return "?"
    thread = side.thread(number)
    expect(number == 0 or (thread is not None and thread.system_number > 0), True, f"thread {number}")
    name = thread.name if thread else side.beside_threads()[2]
    return f"T{thread.number if thread else 0}" + (f" ({name})" if name else "")


def thread_at(side: Side, number: int) -> Thread:
    thread = side.thread(number)
    if thread is None:
        raise Failure(f"thread {number} is in no list")
    return thread


def thread_of_first(side: Side) -> Thread:
    """Returns the thread of the first fault's access."""
    fault = side.fault(1)
    if fault is None:
        raise Failure("there is no fault")
    return thread_at(side, fault.threads[0])


def seen_in(suite: Suite, path: str) -> Tuple[List[Threads], Creators]:
    """Returns the threads of each report of a trace, and who has created them, up to the first thread."""
    checked = run([suite.asancol, "check", path], ".").stdout
    side = side_of(path)
    found: List[Threads] = []
    creators: Creators = {}
    for line in lines_of(checked)[0]:
        fault = side.fault_at(line.event)
        access, allocated, freed = (name_of(side, it) for it in fault.threads)
        found.append((access, allocated, freed))
        for number in fault.threads:
            while number not in (0, UNKNOWN):
                thread = thread_at(side, number)
                creators[name_of(side, number)] = name_of(side, thread.creator)
                number = thread.creator
    return found, creators


def recorded(suite: Suite, folder: str, program: str, *argv: str, **settings: str) -> Tuple[List[Threads], Creators]:
    """The same for a process, or of the one that has reports of several."""
    for path in glob.glob(f"{folder}/*.trace*"):
        os.unlink(path)
    ran = run([program, *argv], folder, ASANCOL_TRACE="%p.trace", ASANCOL_WHERE="1", **settings)
    expect((ran.returncode, ran.stderr), (0, b""), argv)
    seen = [seen_in(suite, path) for path in sorted(glob.glob(f"{folder}/*.trace"))]
    return next((it for it in seen if it[0]), ([], {}))


def by_sanitizer(folder: str, program: str, name: str) -> Tuple[Threads, Creators]:
    said = run([program, name], folder, ASAN_OPTIONS="detect_leaks=0").stderr.decode()

    def first(pattern: str) -> str:
        found: Optional[re.Match[str]] = re.search(pattern + r"thread (T\d+(?: \([^)]*\))?)", said)
        return found.group(1) if found else "T0"

    threads = first(r"(?:READ|WRITE) .* "), first("allocated by "), first("freed by ")
    return threads, dict(re.findall(r"Thread (T\d+(?: \([^)]*\))?) created by (T\d+(?: \([^)]*\))?) here", said))


# The threads of the first report, and who has created whom.
WAYS = {
    "three": (("T3", "T1", "T2"), "T3<T0 T1<T0 T2<T0"),
    "first": (("T0", "T0", "T0"), ""),
    "first_named": (("T0 (boss)",) * 3, ""),
    "past_the_end": (("T0", "T1", "T0"), "T1<T0"),
    "named": (("T3 (user)", "T1 (maker)", "T2 (a name of 15 ch)"), None),
    "nested": (("T4", "T4", "T4"), "T4<T3 T3<T2 T2<T1 T1<T0"),
    "many": (("T1003", "T1001", "T1002"), "T1003<T0 T1001<T0 T1002<T0"),
    "forked": (("T3", "T1", "T2"), None),
    "in_handler": (("T3", "T1", "T2"), "T3<T0 T1<T0 T2<T0"),
}


def check_way(suite: Suite, folder: str, program: str, sanitized: Optional[str], name: str) -> None:
    threads, creators = WAYS[name]
    found, created = recorded(suite, folder, program, name)
    expect(found[0], threads, "threads")
    if creators is not None:
        expect(created, dict(it.split("<") for it in creators.split()), "creators")
    if sanitized:
        said, created_there = by_sanitizer(folder, sanitized, name)
        expect((said, created_there.items() <= created.items()), (threads, True), f"AddressSanitizer: {created_there}")


def check_fork(suite: Suite, folder: str, program: str) -> None:
    """The child goes on with the thread that has forked it, and with its parent's count."""
    found, created = recorded(suite, folder, program, "forked")
    expect(found, [("T3", "T1", "T2"), ("T4", "T1", "T2")], "threads")
    expect((created["T3"], created["T4"]), ("T0", "T3"), "creators")
    path = next(it for it in glob.glob(f"{folder}/*.trace") if seen_in(suite, it)[0])
    side = side_of(path)
    expect(thread_of_first(side).system_number, int(os.path.basename(path).split(".")[0]), "its number")


def check_names(suite: Suite, folder: str, program: str) -> None:
    """Names that another thread gives, also before the thread has begun, and after it was at fault."""
    found, _ = recorded(suite, folder, program, "by_others")
    expect([it[0] for it in found], ["T0 (the first)", "T1 (at once)", "T2 (later)"], "threads")


def check_depth(suite: Suite, folder: str, program: str) -> None:
    """Of a hundred threads that have created each other, those that are nearest are shown."""
    found, created = recorded(suite, folder, program, "deep")
    expect(found, [("T101", "T101", "T101")], "threads")
    expect((len(created), created["T101"], created["T69"]), (33, "T100", "?"), "creators")


def check_overflow(suite: Suite, folder: str, program: str) -> None:
    """A thread past the last number is not known, and no other one is taken for it."""
    found, created = recorded(suite, folder, program, "too_many")
    expect(found, [("?", "T32765", "T32766"), ("T0", "T32765", "T32766")], "threads")
    expect(created, {"T32765": "T0", "T32766": "T0"}, "creators")


def check_list(suite: Suite, folder: str, program: str) -> None:
    """Threads past the end of the list are not known."""
    found, _ = recorded(suite, folder, program, "more_than_listed")
    expect([it[0] for it in found], ["T0", *(f"T{it}" for it in range(1, 4097))] + ["?"] * 4, "threads")


def check_c11(suite: Suite, folder: str, program: str) -> None:
    found, created = recorded(suite, folder, program, "of_c11")
    expect((found, created["T3"]), ([("T3", "T1", "T2")], "T0"), "threads")


def check_segments(suite: Suite, folder: str, program: str) -> None:
    """A segment has a list of threads for itself."""
    run([program, "apart"], folder, ASANCOL_TRACE="t.trace", ASANCOL_WHERE="1", ASANCOL_LIMIT="64")
    paths = glob.glob(f"{folder}/t*.trace")
    found = {os.path.basename(path): seen_in(suite, path) for path in paths}
    first, other = found.pop("t.trace"), next(it for it in found.values() if it[0])
    expect(first, ([("T3", "T1", "T2")], dict.fromkeys(("T3", "T1", "T2"), "T0 (boss)")), "the first segment")
    expect(other, ([("T6", "T4", "T5")], dict.fromkeys(("T6", "T4", "T5"), "T0 (boss)")), "a later one")


def check_crash(suite: Suite, folder: str, program: str) -> None:
    """Which thread a signal has met that ends the process, and who has created it."""
    for name, number, thread, creator in (("wild", signal.SIGSEGV, "T2 (reader)", 0),
                                          ("wild_first", signal.SIGSEGV, "T0", None),
                                          ("gives_up", signal.SIGABRT, "T1", 0)):
        ran = run([program, name], folder, ASANCOL_TRACE=f"{name}.trace", ASANCOL_WHERE="1")
        expect(ran.returncode, -number, name)
        side = side_of(f"{folder}/{name}.trace")
        last = side.last().thread
        found = side.thread(last)
        expect((name_of(side, last), found.creator if found else None), (thread, creator), name)


LIBRARY = """
#include <pthread.h>
#include <stdlib.h>
static char *volatile block;
static void *allocate(void *p) { pthread_setname_np(pthread_self(), "of a library"); block = malloc(10); return p; }
static void *use(void *p) { free(block); block[3] = 1; return p; }
void library_runs(void) {
    pthread_t thread;
    pthread_create(&thread, NULL, allocate, NULL);
    pthread_join(thread, NULL);
    pthread_create(&thread, NULL, use, NULL);
    pthread_join(thread, NULL); }
"""
USES_LIBRARY = "void library_runs(void); int main(void) { library_runs(); return 0; }\n"
WANTED_OF_TWO = [("T2", "T1 (of a library)", "T2")]


def check_library(suite: Suite, folder: str, compiler: Compiler) -> None:
    write(folder, library_c=LIBRARY, program_c=USES_LIBRARY)
    compiler.c(folder, ["library.c"], "libit.so", "-fPIC", "-shared", "-pthread", "-D_GNU_SOURCE")
    compiler.c(folder, ["program.c"], "program", "-L.", "-lit", "-Wl,-rpath,$ORIGIN")
    expect(recorded(suite, folder, "./program"), (WANTED_OF_TWO, {"T2": "T0", "T1 (of a library)": "T0"}), "threads")


CPP = """
#include <pthread.h>
#include <thread>
static int *volatile block;
static void of(void work(), const char *name) {
    std::thread thread([=] { if (name) pthread_setname_np(pthread_self(), name); work(); });
    thread.join(); }
int main() {
    of([] { block = new int[3]; }, "of a library");
    of([] { delete[] block; block[1] = 1; }, nullptr); }
"""


def check_cpp(suite: Suite, folder: str, compiler: Compiler) -> None:
    """std::thread, whose threads the library of C++ creates: the stack leads on from there."""
    write(folder, program_cpp=CPP)
    compiler.cpp(folder, ["program.cpp"], "program", "-pthread", "-w")
    expect(recorded(suite, folder, "./program"), (WANTED_OF_TWO, {"T2": "T0", "T1 (of a library)": "T0"}), "threads")
    side = side_of(glob.glob(f"{folder}/*.trace")[0])
    thread = thread_of_first(side)
    expect("main" in [function for function, _ in side.lines(thread.created)], True, "where it was created")


def check_walks(_suite: Suite, folder: str, compiler: Compiler) -> None:
    """A place of walks is one thread's, whenever a handler comes."""
    argv = ["-iquote", RECORDER, "-iquote", TOP, "-pthread"]
    compiler.c(folder, [f"{TESTS}/walks.c"], "walks", "-std=gnu11", *argv, native=True)
    ran = run(["./walks"], folder)
    expect((ran.returncode, ran.stdout, ran.stderr), (0, b"", b""), "the program")


MANY = """
#include <pthread.h>
#include <sched.h>
#include <signal.h>
#include <stdatomic.h>
#include <stdio.h>
#include <stdlib.h>
#include <string.h>
#include <time.h>
static atomic_int used;
static long pages(void)
{
    long all, now;
    FILE *file = fopen("/proc/self/statm", "r");
    if (fscanf(file, "%ld %ld", &all, &now) != 2)
        abort();
    fclose(file);
    return now;
}
static void *use(void *block)
{
    free(block);
    free(memset(malloc(1000), 1, 1000));
    used++;
    return malloc(100);
}
static void at_timer(union sigval value) { free(use(value.sival_ptr)); }
static void by_timer(int count)
{
    struct sigevent event = {.sigev_notify = SIGEV_THREAD, .sigev_notify_function = at_timer};
    struct itimerspec soon = {.it_value = {0, 1000}};
    for (int i = 0, before = used; i < count; i++, before = used) {
        timer_t timer;
        if (timer_create(CLOCK_MONOTONIC, &event, &timer) != 0 || timer_settime(timer, 0, &soon, NULL) != 0)
            abort();
        while (used == before)
            sched_yield();
        timer_delete(timer);
    }
}
static void by_program(int count)
{
    pthread_t threads[8];
    for (int i = 0; i < count; i++) {
        void *block;
        if (i >= 8 && pthread_join(threads[i % 8], &block) == 0)
            free(block);
        if (pthread_create(&threads[i % 8], NULL, use, malloc(10)) != 0)
            abort();
    }
    for (int i = 0; i < 8; i++)
        pthread_join(threads[i], NULL);
}
int main(int count, char **argv)
{
    void (*many)(int) = count == 2 ? by_timer : by_program;
    many(64);
    long before = pages();
    many(atoi(argv[1]));
    printf("%ld\\n", (pages() - before) * 4 / 1024);
    return 0;
}
"""


def check_many(suite: Suite, folder: str, compiler: Compiler, is_static: bool) -> None:
    """Threads whose end nobody sees, of the C library or of a static program, leave no memory behind."""
    write(folder, many_c=MANY)
    compiler.c(folder, ["many.c"], "many", "-O1", "-pthread", *["-static"] * is_static)
    recorded = {"ASANCOL_TRACE": "%p.trace", "ASANCOL_FULL": "0", "ASANCOL_WHERE": "1"}
    unrecorded: Dict[str, str] = {}
    for settings in (unrecorded, recorded):
        ran = run(["./many", "2000", *["static"] * is_static], folder, **settings)
        expect((ran.returncode, ran.stderr), (0, b""), "the program")
        expect(int(ran.stdout) < 8, True, f"2,000 threads left {int(ran.stdout)} MB, with {settings}")


def tests(suite: Suite, compiler: Compiler) -> None:
    suite.test(f"{compiler} places of walks", check_walks, compiler)
    sources, name = [f"{TESTS}/threads.c"], f"threads-{compiler}"
    program, sanitized = suite.built(compiler.c, sources, name, "-w", "-pthread"), None
    if compiler.has_sanitizer:
        flags = ["-w", "-pthread", "-fsanitize=address"]
        sanitized = suite.built(compiler.c, sources, f"{name}-sanitized", *flags, native=True)
    for way in WAYS:
        suite.test(f"{compiler} which threads: {way}", check_way, program, sanitized, way)
    for way, check in (("after a fork", check_fork), ("names by others", check_names), ("depth", check_depth),
                       ("overflow", check_overflow), ("list", check_list), ("of C11", check_c11),
                       ("segments", check_segments), ("crash", check_crash)):
        suite.test(f"{compiler} which threads: {way}", check, program)
    suite.test(f"{compiler} which threads: of a shared object", check_library, compiler)
    suite.test(f"{compiler} memory of threads: of timers", check_many, compiler, False)
    suite.test(f"{compiler} memory of threads: of a static program", check_many, compiler, True)
    if compiler.cxx:
        suite.test(f"{compiler} which threads: of C++", check_cpp, compiler)
