"""Leaks: the recorder finds the blocks that the compilers' own LeakSanitizer finds, in as many groups of bytes."""

import os
import re
import shutil
import time
from typing import Dict, List, Tuple

from support import TESTS, Compiler, Suite, expect, leave_out, run, write
from testing.programs import REPORT
from testing.side import side_of

LEAK, INDIRECT = 1, 2

# For each way to lose blocks: the bytes and blocks that are lost directly, and indirectly.
Lost = Tuple[int, int, int, int]
NOTHING: Lost = (0, 0, 0, 0)
WAYS: Dict[str, Lost] = {
    "direct": (100, 1, 0, 0),
    "none_of_bytes": (1, 1, 0, 0),
    "indirect": (32, 1, 40, 1),
    "cycle": (0, 0, 64, 2),
    "chain": (32, 1, 3199968, 99999),
    "kept_chain": (32, 1, 3199968, 99999),
    "in_global": NOTHING,
    "in_thread_local": NOTHING,
    "inside": NOTHING,
    "past_the_end": (72, 1, 0, 0),
    "unaligned": (74, 1, 0, 0),
    "large": (3145728, 1, 0, 0),
    "by_key": NOTHING,
    "on_other_stack": NOTHING,
    "in_other_register": NOTHING,
    "in_vector_register": NOTHING,
    "of_ended_thread": (132, 3, 0, 0),
    "with_blocked_signals": (8, 1, 0, 0),
    "in_handler": NOTHING,
    "of_vector": (24, 1, 476, 6),
    "shared_cycle": (0, 0, 56, 2),
    "empty_array": NOTHING,
    "disabled": (100, 1, 0, 0),
    "ignored": NOTHING,
    "in_root_region": NOTHING,
    "in_many_regions": (76, 1, 0, 0),
    "in_former_region": (77, 1, 0, 0),
    "in_mapping": (78, 1, 0, 0),
    "many": (6000, 1000, 0, 0),
    "of_statics": NOTHING,
    "of_library_of_c": NOTHING,
    "of_getline": (120, 1, 0, 0),
    "in_loaded_library": NOTHING,
    "in_closed_library": NOTHING,
    "in_exit_handler": (100, 1, 0, 0),
    "when_asked": (100, 1, 0, 0),
    "by_exit": (100, 1, 0, 0),
    "protected_block": NOTHING,
}
# What LeakSanitizer says otherwise: the same leak each time that it is asked.
OTHERWISE = {"when_asked": (200, 2, 0, 0)}

LIBRARY = """
#include <stdlib.h>
static _Thread_local char room[40000];
static _Thread_local void *held;
static void *of_module;
void keep(void) { held = malloc(93); of_module = malloc(97); room[5] = 1; }
"""

WANTED = {"ASANCOL_WHERE": "1", "ASANCOL_LEAKS": "1"}


def lost_in(path: str) -> Lost:
    """Returns what the findings beside a trace come to."""
    found = list(side_of(path).findings())
    sums = [[it for it in found if it.kind == kind] for kind in (LEAK, INDIRECT)]
    direct, indirect = ((sum(it.size for it in those), sum(it.count for it in those)) for those in sums)
    return (*direct, *indirect)


def recorded(folder: str, program: str, *argv: str, **settings: str) -> Lost:
    ran = run([program, *argv], folder, ASANCOL_TRACE=f"{folder}/t.trace", **{**WANTED, **settings})
    expect((ran.returncode, ran.stderr), (0, b""), argv)
    return lost_in(f"{folder}/t.trace")


def by_sanitizer(folder: str, program: str, name: str, **settings: str) -> Lost:
    said = run([program, name], folder, LSAN_OPTIONS="exitcode=0", **settings).stderr.decode()
    sums: List[int] = []
    for kind in ("Direct", "Indirect"):
        found = re.findall(rf"^{kind} leak of (\d+) byte\(s\) in (\d+) object", said, re.M)
        sums += [sum(int(it[0]) for it in found), sum(int(it[1]) for it in found)]
    return (sums[0], sums[1], sums[2], sums[3])


def check_way(suite: Suite, folder: str, compiler: Compiler, program: str, sanitized: str, name: str) -> None:
    write(folder, library_c=LIBRARY)
    compiler.c(folder, ["library.c"], "liblocal.so", "-O1", "-fPIC", "-shared", native=True)
    expect(recorded(folder, program, name), WAYS[name], "bytes and blocks")
    if compiler.has_sanitizer:
        expect(by_sanitizer(folder, sanitized, name), OTHERWISE.get(name, WAYS[name]), "LeakSanitizer")


# Threads that allocate, keep and lose blocks, take signals, begin and end, while others look for leaks.
STRESS = """
#include <pthread.h>
#include <sanitizer/lsan_interface.h>
#include <signal.h>
#include <stdatomic.h>
#include <stdlib.h>
#include <unistd.h>
static _Atomic int handled, is_over;
static _Thread_local void *volatile of_thread;
static void on_signal(int number) { free(malloc(16)); handled++; }
static void *end(void *p) { free(p); return NULL; }
static void *work(void *p) {
    void *volatile mine[8] = {0};
    for (int i = 0; !is_over; i++) {
        free(mine[i % 8]);
        mine[i % 8] = malloc((size_t)i % 300 + 1);
        free(of_thread);
        of_thread = malloc(24);
        if (i % 64 == 0) {
            pthread_t other;
            if (pthread_create(&other, NULL, end, malloc(32)) == 0) pthread_join(other, NULL);
        }
        if (i % 16 == 0) raise(SIGUSR1);
    }
    for (int i = 0; i < 8; i++) free(mine[i]);
    free(of_thread);
    of_thread = NULL;
    return p;
}
int main(void) {
    enum { THREADS = 8 };
    pthread_t threads[THREADS];
    int leaks = 0;
    signal(SIGUSR1, on_signal);
    for (int i = 0; i < THREADS; i++) pthread_create(&threads[i], NULL, work, NULL);
    for (int i = 0; i < 100; i++) { leaks += __lsan_do_recoverable_leak_check(); usleep(500); }
    is_over = 1;
    for (int i = 0; i < THREADS; i++) pthread_join(threads[i], NULL);
    return leaks != 0 || handled == 0;
}
"""


def check_stress(suite: Suite, folder: str, compiler: Compiler) -> None:
    """A hundred times all threads stop wherever they are, and nothing is lost."""
    write(folder, stress_c=STRESS)
    compiler.c(folder, ["stress.c"], "stress", "-O1", "-w", "-pthread")
    expect(recorded(folder, "./stress"), NOTHING, "leaks")


# The users of all threads change by the signal by which they are stopped.
USERS = """
#define _GNU_SOURCE
#include <pthread.h>
#include <sanitizer/lsan_interface.h>
#include <stdatomic.h>
#include <unistd.h>
static _Atomic int is_over;
static void *change(void *p) {
    while (!is_over) if (setresuid(getuid(), geteuid(), geteuid()) != 0) return p;
    return p;
}
int main(void) {
    pthread_t threads[3];
    for (int i = 0; i < 3; i++) pthread_create(&threads[i], NULL, change, NULL);
    for (int i = 0; i < 200; i++) __lsan_do_recoverable_leak_check();
    is_over = 1;
    for (int i = 0; i < 3; i++) pthread_join(threads[i], NULL);
    return 0;
}
"""


def check_users(suite: Suite, folder: str, compiler: Compiler) -> None:
    write(folder, users_c=USERS)
    compiler.c(folder, ["users.c"], "users", "-O1", "-w", "-pthread")
    expect(recorded(folder, "./users"), NOTHING, "leaks")


ENDS = """
#include <pthread.h>
#include <signal.h>
#include <stdlib.h>
#include <string.h>
#include <sanitizer/lsan_interface.h>
#include <sys/wait.h>
#include <unistd.h>
static void *volatile sink;
__attribute__((noinline)) static void lose(size_t size) { sink = malloc(size); sink = NULL; }
__attribute__((noinline, no_sanitize("address", "kernel-address"))) static void clear_stack(void) {
    volatile char bytes[16000];
    for (size_t i = 0; i < sizeof bytes; i++) bytes[i] = 0; }
int main(int count, char **argv) {
    const char *how = argv[1];
    lose(40);
    clear_stack();
    if (strcmp(how, "_exit") == 0) _exit(0);
    if (strcmp(how, "exec") == 0) execl("/bin/true", "true", (char *)NULL);
    if (strcmp(how, "quick_exit") == 0) quick_exit(0);
    if (strcmp(how, "signal") == 0) raise(SIGTERM);
    if (strcmp(how, "once") == 0) { __lsan_do_leak_check(); lose(50); __lsan_do_leak_check(); }
    if (strcmp(how, "fork") == 0) {
        if (fork() == 0) { lose(60); clear_stack(); exit(0); }
        wait(NULL);
    }
    clear_stack();
    return 0; }
"""
OFF = 'int __lsan_is_turned_off(void) { return 1; }\n'


def check_ends(suite: Suite, folder: str, compiler: Compiler) -> None:
    """Which ends of a process look for leaks: those at which LeakSanitizer does."""
    write(folder, ends_c=ENDS, off_c=ENDS + OFF)
    compiler.c(folder, ["ends.c"], "ends", "-O1", "-w", "-pthread")
    one = (40, 1, 0, 0)
    for how, wanted in {"return": one, "_exit": NOTHING, "exec": NOTHING, "quick_exit": NOTHING, "signal": NOTHING,
                        "once": one}.items():
        run(["./ends", how], folder, ASANCOL_TRACE=f"{how}.trace", **WANTED)
        expect(lost_in(f"{folder}/{how}.trace"), wanted, how)
    run(["./ends", "fork"], folder, ASANCOL_TRACE="fork.%p.trace", **WANTED)
    found = [lost_in(f"{folder}/{it}") for it in os.listdir(folder) if re.fullmatch(r"fork\.\d+\.trace", it)]
    expect(sorted(found), [one, (100, 2, 0, 0)], "a child has what its parent had lost")
    run(["./ends", "return"], folder, ASANCOL_TRACE="unwanted.trace", ASANCOL_WHERE="1")
    expect(lost_in(f"{folder}/unwanted.trace"), NOTHING, "nobody asked")
    compiler.c(folder, ["off.c"], "off", "-O1", "-w", "-pthread")
    expect(recorded(folder, "./off", "return"), NOTHING, "turned off")


STATIC = """
#include <pthread.h>
#include <stdlib.h>
#include <unistd.h>
static void *volatile sink;
void *global;
_Thread_local void *volatile of_thread;
__attribute__((noinline)) static void lose(void) { sink = malloc(77); sink = NULL; global = malloc(10); }
static void *wait_here(void *p) { void *volatile mine = malloc(13); of_thread = malloc(12); pause(); return mine; }
int main(int count, char **argv) {
    pthread_t thread;
    of_thread = malloc(11);
    if (count > 1 && pthread_create(&thread, NULL, wait_here, malloc(14)) == 0) usleep(50000);
    lose();
    return 0; }
"""


def check_static(suite: Suite, folder: str, compiler: Compiler) -> None:
    write(folder, static_c=STATIC)
    compiler.c(folder, ["static.c"], "static", "-O1", "-w", "-static", "-pthread")
    expect(recorded(folder, "./static"), (77, 1, 0, 0), "one thread")
    os.unlink(f"{folder}/t.trace")
    os.unlink(f"{folder}/t.trace.where")
    expect(recorded(folder, "./static", "two"), (77, 1, 0, 0), "two threads")


ORDER = """
#include <stdlib.h>
static void *volatile sink;
#define LOSE(size) (sink = malloc(size), sink = malloc(size), sink = malloc(size), sink = malloc(size), sink = NULL)
int main(void) {
    LOSE(24); LOSE(24); LOSE(300); LOSE(24); LOSE(24);
    volatile char bytes[16000];
    for (size_t i = 0; i < sizeof bytes; i++) bytes[i] = 0;
    return 0; }
"""


def check_order(suite: Suite, folder: str, compiler: Compiler) -> None:
    """The largest come first, and those of one size as their blocks lie: in each run the same."""
    write(folder, order_c=ORDER)
    compiler.c(folder, ["order.c"], "order", "-O1", "-w")
    for name in ("one", "other"):
        run(["./order"], folder, ASANCOL_TRACE=f"{name}.trace", **WANTED)
        found = [(-it.size, it.block) for it in side_of(f"{folder}/{name}.trace").findings()]
        expect((found, len(found)), (sorted(found), 20), "as they stand")


ARGUMENTS = """
#include <stdlib.h>
#include <string.h>
extern char **environ;
int main(int count, char **argv) {
    for (int i = 1; i < count; i++) argv[i] = strdup(argv[i]);
    for (int i = 0; environ[i] != NULL; i++) environ[i] = strdup(environ[i]);
    return 0; }
"""


def check_arguments(suite: Suite, folder: str, compiler: Compiler) -> None:
    """In place of the arguments and the variables, which lie on several pages, blocks are in use: as setproctitle puts
    them there."""
    many = [f"word {i}" for i in range(900)]
    write(folder, arguments_c=ARGUMENTS)
    compiler.c(folder, ["arguments.c"], "arguments", "-O1", "-w")
    expect(recorded(folder, "./arguments", *many), NOTHING, "lost blocks")


def check_debugger(suite: Suite, folder: str, compiler: Compiler) -> None:
    """Threads stop, and go on, in a debugger, which says nothing of it."""
    if not shutil.which("gdb"):
        leave_out("gdb is not there")
        return
    write(folder, stress_c=STRESS.replace("i < 100;", "i < 5;"))
    compiler.c(folder, ["stress.c"], "stress", "-O1", "-w", "-pthread")
    argv = ["gdb", "-batch", "-ex", "handle SIGUSR1 nostop noprint pass", "-ex", "run", "./stress"]
    ran = run(argv, folder, ASANCOL_TRACE=f"{folder}/t.trace", **WANTED)
    expect((b"exited normally" in ran.stdout, b"received signal" in ran.stdout), (True, False), ran.stdout.decode())
    expect(lost_in(f"{folder}/t.trace"), NOTHING, "leaks")


# Frames apart from the stack that alone lead to a block: of the first thread and of another one. And one that was
# returned from, which leads nowhere.
FRAMES = """
#include <pthread.h>
#include <stdlib.h>
#include <unistd.h>
__attribute__((noinline)) static void fill(void *volatile *room, size_t size) { *room = malloc(size); }
__attribute__((noinline, no_sanitize("address", "kernel-address"))) static void clear_stack(void) {
    volatile char bytes[16000];
    for (size_t i = 0; i < sizeof bytes; i++) bytes[i] = 0; }
__attribute__((noinline)) static void lose(void) { void *volatile room[8]; fill(room + 3, 300); }
static void *wait_here(void *p) {
    void *volatile room[8];
    fill(room + 3, 200);
    clear_stack();
    for (;;) pause();
    return room[3]; }
int main(void) {
    void *volatile room[8];
    pthread_t thread;
    if (pthread_create(&thread, NULL, wait_here, NULL) == 0) usleep(50000);
    lose();
    fill(room + 3, 100);
    clear_stack();
    exit(0); }
"""


def check_frames(suite: Suite, folder: str, compiler: Compiler) -> None:
    write(folder, frames_c=FRAMES)
    flags, kept = ["-O1", "-w", "-pthread"], (300, 1, 0, 0)
    for option in ("runtime", "always"):
        compiler.c(folder, ["frames.c"], "frames", *flags, f"-fsanitize-address-use-after-return={option}")
        expect(recorded(folder, "./frames"), kept, option)
        os.unlink(f"{folder}/t.trace")
        os.unlink(f"{folder}/t.trace.where")
    if compiler.has_sanitizer:
        compiler.c(folder, ["frames.c"], "sanitized", *flags, "-fsanitize=address", native=True)
        options = "detect_stack_use_after_return=1"
        expect(by_sanitizer(folder, "./sanitized", "", ASAN_OPTIONS=options), kept, "LeakSanitizer")


# A thread that no signal stops: it waits for a child of vfork, or it has blocked the C library's own signals.
STUCK = """
#define _GNU_SOURCE
#include <pthread.h>
#include <stdlib.h>
#include <string.h>
#include <sys/syscall.h>
#include <unistd.h>
static void *volatile sink;
static void *wait_here(void *how) {
    unsigned long all = -1ul;
    if (strcmp(how, "vfork") == 0 && vfork() == 0) { sleep(4); _exit(0); }
    if (strcmp(how, "blocks") == 0) syscall(SYS_rt_sigprocmask, 0, &all, NULL, sizeof all);
    for (;;) pause(); }
int main(int count, char **argv) {
    pthread_t thread;
    if (pthread_create(&thread, NULL, wait_here, argv[1]) == 0) usleep(50000);
    sink = malloc(100);
    sink = NULL;
    return 7; }
"""


def check_stuck(suite: Suite, folder: str, compiler: Compiler) -> None:
    """Nothing leaks unnoticed, and the process ends as without the recorder."""
    write(folder, stuck_c=STUCK)
    compiler.c(folder, ["stuck.c"], "stuck", "-O1", "-w", "-pthread")
    for how in ("vfork", "blocks"):
        began = time.monotonic()
        ran = run(["./stuck", how], folder, ASANCOL_TRACE=f"{how}.trace", **WANTED)
        said = "asancol: leaks are not looked for: ./stuck: a thread does not stop\n"
        expect((ran.returncode, ran.stderr.decode()), (7, said), how)
        expect(how == "vfork" or time.monotonic() - began < 3, True, "one that sleeps with its signals blocked is seen")
        expect((lost_in(f"{folder}/{how}.trace"), side_of(f"{folder}/{how}.trace").leaks_missed), (NOTHING, 1), how)
        for leaks, status, text in (("yes", 3, "INCOMPLETE: its leaks were not looked for, "),
                                    ("summary", 0, "asancol: leaks of a process were not looked for, ")):
            ran = run([REPORT, f"--leaks={leaks}", "--trace", f"{how}.trace"], folder, ASANCOL=suite.asancol)
            expect((ran.returncode, text in ran.stdout.decode()), (status, True), ran.stdout.decode())


def tests(suite: Suite, compiler: Compiler) -> None:
    if compiler.cxx:
        sources, flags = [f"{TESTS}/leaks.cpp"], ["-w", "-O1", "-pthread"]
        program = suite.built(compiler.cpp, sources, f"leaks-{compiler}", *flags)
        sanitized = suite.built(compiler.cpp, sources, f"leaks-{compiler}-sanitized", *flags, "-fsanitize=leak",
                                native=True)
        for name in WAYS:
            suite.test(f"{compiler} leaks {name}", check_way, compiler, program, sanitized, name)
    for name, check in (("of threads that work", check_stress), ("while users change", check_users),
                        ("at each end", check_ends), ("of a static program", check_static), ("in order", check_order),
                        ("in the arguments", check_arguments), ("in a debugger", check_debugger),
                        ("that a frame alone leads to", check_frames),
                        ("if a thread does not stop", check_stuck)):
        suite.test(f"{compiler} leaks {name}", check, compiler)
