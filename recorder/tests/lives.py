"""What happens to processes: however they live and end, their trace has what they did."""

import os
import shutil
import signal
import time
from functools import partial
from typing import Dict, List, Tuple

from support import MARK, TESTS, Trace, environment, expect, limited, reports, run, write
from testing.programs import PATIENCE, call


# What happens to processes: the status (or minus the signal), the fate of the trace, and its reports.
LIVES: Dict[str, Tuple[int, str, List[str]]] = {
    "ends_normally": (0, "closed", [MARK]),
    "ends_by__exit": (7, "closed", [MARK]),
    "ends_by_quick_exit": (7, "closed", [MARK]),
    "exits_in_a_thread": (7, "closed", [MARK]),
    "leaves_its_first_thread": (7, "closed", [MARK]),
    "segfaults": (-11, "no-close", [MARK]),
    "aborts": (-6, "no-close", [MARK]),
    "is_killed": (-9, "malformed code", [MARK]),
    "is_terminated": (-15, "no-close", [MARK]),
    "asks_for_handlers": (0, "closed", []),
    "recovers_from_a_fault": (0, "closed", [MARK]),
    "handlers_allocate": (0, "closed", [MARK]),
    "handlers_jump": (0, "closed", [MARK]),
    "handlers_allocate_in_threads": (0, "closed", [MARK]),
    "ends_by_another_signal": (-(signal.SIGRTMIN + 3), "no-close", [MARK]),
    "cancels_threads": (0, "closed", [MARK]),
    "many_events_in_threads": (0, "closed", []),
    "keeps_errno": (0, "closed", [MARK]),
    "keeps_little": (0, "closed", []),
    "threads_exchange": (0, "closed", [MARK]),
    "many_threads": (0, "closed", [MARK]),
    "ends_with_threads": (0, "closed", [MARK]),
    "forks_by_the_system": (0, "closed", [MARK]),
    "forks_quietly": (0, "closed", [MARK]),
    "clones": (0, "closed", [MARK]),
    "vforks": (0, "closed", [MARK]),
    "execs_in_vain": (0, "closed", [MARK, MARK]),
    "spawns": (0, "closed", [MARK]),
    "closes_all": (0, "closed", [MARK]),
    "counts_descriptors": (0, "closed", []),
    "has_a_huge_block": (0, "closed", ["store 1 use-after-poison"] * 3 + ["free bad-free"]),
    "closes_errors": (0, "closed", [MARK] * 100),
    "fills_its_memory": (0, "closed", []),
    "many_events": (0, "closed", [MARK]),
    "many_frees": (0, "closed", [MARK]),
    "uses_exit_handlers": (0, "closed", [MARK]),
    "loads_a_library": (0, "closed", [MARK]),
}


# They have a child that nothing announces, and a line says that it is not recorded.
UNANNOUNCED = ("forks_by_the_system",)


def check_life(suite, folder, program, name, status, fate, wanted):
    shutil.copy(f"{program}.so", f"{folder}/libplugin.so")
    trace = f"{folder}/t.trace"
    ran = run([program, name], folder, ASANCOL_TRACE="t.trace")
    expect(ran.returncode, status, "status of the program")
    said = 1 if name in UNANNOUNCED else 0
    expect(len(ran.stderr.splitlines()), said, f"standard error of the program: {ran.stderr}")
    checked, texts, end = reports(suite.asancol, trace)
    expect(texts, wanted, "reports")
    expect(end.split(" events ")[0], fate, "fate")
    expect(checked, 3 if fate != "closed" else 1 if wanted else 0, "status")
    if os.path.exists(f"{folder}/victim"):
        expect(os.path.getsize(f"{folder}/victim"), 0, "what was written to another file")


def traces(folder):
    return sorted(name for name in os.listdir(folder) if name.endswith(".trace"))


def check_fork(suite, folder, program):
    ran = run([program, "forks"], folder, ASANCOL_TRACE="%p.trace")
    expect((ran.returncode, ran.stderr), (0, b""))
    seen = sorted(tuple(reports(suite.asancol, f"{folder}/{name}")[1]) for name in traces(folder))
    expect(seen, [(), ("load 1 +1 heap-use-after-free",)], "reports of parent and child")
    for name in traces(folder):
        expect(Trace(f"{folder}/{name}").is_closed, True, name)


def check_fork_in_a_thread(suite, folder, program):
    ran = run([program, "forks_in_a_thread"], folder, ASANCOL_TRACE="%p.trace")
    expect((ran.returncode, ran.stderr), (0, b""))
    seen = [reports(suite.asancol, f"{folder}/{name}")[1] for name in traces(folder)]
    expect([it for it in seen if it], [[MARK]], "reports")
    # One of each process; on a slow machine the busy threads fill more than one segment.
    expect(len(seen) >= 11, True, "traces")


def check_fork_beside_the_loader(suite, folder, program):
    """A thread has the loader's lock while another one forks. The children, and theirs, end."""
    ran = run([program, "forks_beside_the_loader"], folder, ASANCOL_TRACE="%p.trace", ASANCOL_WHERE="1",
              ASANCOL_LEAKS="1")
    expect((ran.returncode, ran.stderr), (0, b""))
    ends = [reports(suite.asancol, f"{folder}/{name}")[1:] for name in traces(folder)]
    expect([(texts, end.split()[0]) for texts, end in ends], [([], "closed")] * 101)


def check_handlers_beside_the_loader(suite, folder, program):
    """A handler in the middle of the allocator waits for no thread that has the loader's lock: that may wait for it."""
    ran = run([program, "handlers_beside_the_loader"], folder, ASANCOL_TRACE="%p.trace", ASANCOL_FULL="0")
    known = ("a forked child is not recorded", "a signal handler has jumped out of the allocator")
    lines = [line for line in ran.stderr.decode().splitlines() if not any(it in line for it in known)]
    expect((ran.returncode, lines), (0, []))


def check_fork_in_handlers(suite, folder, program):
    ran = run([program, "forks_in_handlers"], folder, ASANCOL_TRACE="%p.trace")
    lines = ran.stderr.decode().splitlines()
    expect((ran.returncode, [line for line in lines if "a forked child is not recorded" not in line]), (0, []))
    names = traces(folder)
    expect(len(names) + len(lines), 51, "traces, and lines that there is none")
    for name in names:
        _, texts, end = reports(suite.asancol, f"{folder}/{name}")
        expect((texts, end.split()[0]), ([MARK], "closed"), name)


def check_exec(suite, folder, program):
    ran = run([program, "execs"], folder, ASANCOL_TRACE="run.trace")
    expect((ran.returncode, ran.stderr), (0, b""))
    expect(traces(folder), ["run.1.trace", "run.trace"], "traces")
    for name in traces(folder):
        status, texts, end = reports(suite.asancol, f"{folder}/{name}")
        expect((status, texts, end.split()[0]), (1, [MARK], "closed"), name)


def check_exec_in_vain_beside_faults(suite, folder, program):
    """Another thread is in the middle of faults, again and again. The recording goes on."""
    write(folder, no_program="neither\n")
    os.chmod(f"{folder}/no.program", 0o755)
    ran = run([program, "execs_in_vain_beside_faults"], folder, ASANCOL_TRACE="t.trace", ASANCOL_WHERE="1")
    known = "other threads went on while an exec was tried"
    expect((ran.returncode, [line for line in ran.stderr.decode().splitlines() if known not in line]), (0, []))


def check_other_name(suite, folder, program):
    """Where a trace went is said if an earlier run has left one: by the first process, and not by those after it."""

    def said(*argv):
        time.sleep(0.05)  # what has the same time is of the same run
        return run([*argv], folder, ASANCOL_TRACE="run.trace").stderr.decode()

    line = "asancol: the trace goes to {0}/run.{1}.trace: {0}/run.trace was there before\n"
    for count, argv in enumerate((["ends_normally"], ["ends_normally"], ["execs"], ["forks"])):
        taken = len(traces(folder))
        expect(said(program, *argv), line.format(folder, taken) if taken else "", f"run {count}")
    several = f"{program} ends_normally && sleep 0.05 && {program} execs && sleep 0.05 && {program} forks"
    taken = len(traces(folder))
    expect(said("sh", "-c", several), line.format(folder, taken), "a run of several")
    for name in traces(folder):
        os.unlink(f"{folder}/{name}")
    expect((said("sh", "-c", several), len(traces(folder))), ("", 5), "a run of several that finds none")


def check_lost_trace(suite, folder, program, name, settings):
    ran = run([program, name], folder, ASANCOL_TRACE="t.trace", **settings)
    expect((ran.returncode, len(ran.stderr.splitlines())), (0, 1), ran.stderr)
    expect(os.path.getsize(f"{folder}/t.trace"), 0, "the trace")


def check_no_errors(suite, folder, program):
    """Nobody reads standard error, where a line would go."""
    reading, writing = os.pipe()
    os.close(reading)
    settings = environment(ASANCOL_TRACE="t.trace", **limited(100))
    argv = [program, "many_events"]
    ran = call(argv, cwd=folder, stderr=writing, env=settings, timeout=PATIENCE, check=False)
    os.close(writing)
    expect(ran.returncode, 0, "status of the program")


def check_small_files(suite, folder, program):
    """A limit on the size of files that the process has from the start."""
    ran = run(["sh", "-c", f"ulimit -f 100; exec {program} many_events"], folder, ASANCOL_TRACE="t.trace")
    expect((ran.returncode, len(ran.stderr.splitlines())), (0, 1), ran.stderr)
    expect(os.listdir(folder), [], "files")


def check_nowhere(suite, folder, program, settings, status=0):
    """The program runs as usual, and one line says that nothing is recorded."""
    ran = run([program, "many_events"], folder, **settings)
    expect(ran.returncode, status, "status of the program")
    lines = ran.stderr.decode().splitlines()
    expect(len(lines), 1, f"lines {lines}")
    expect(lines[0].startswith("asancol: "), True, lines[0])


def check_unset(suite, folder, program):
    ran = run([program, "many_events"], folder)
    expect((ran.returncode, ran.stderr), (0, b""))
    expect(os.listdir(folder), [], "files")


def check_quarantine(suite, folder, program):
    ran = run([program, "many_frees"], folder, ASANCOL_TRACE="t.trace", ASANCOL_QUARANTINE="5000")
    expect((ran.returncode, ran.stderr), (0, b""))
    status, texts, _ = reports(suite.asancol, f"{folder}/t.trace", ["--quarantine", "5000"])
    expect((status, texts), (1, [MARK]), "with the same bound")
    _, texts, _ = reports(suite.asancol, f"{folder}/t.trace")
    expect(any("bad-malloc" in text for text in texts), True, "bad mallocs with a greater bound")


def check_file_limit(suite, folder, program):
    ran = run([program, "writes_past_a_limit"], folder, ASANCOL_TRACE="t.trace")
    expect((ran.returncode, len(ran.stderr.decode().splitlines())), (0, 1), ran.stderr)
    status, texts, end = reports(suite.asancol, f"{folder}/t.trace")
    expect((status, texts, end.split()[0]), (3, [MARK], "no-close"))


def check_little_memory(suite, folder, program):
    """Under a limit of address space there is no room for the shadow, and the program ends with a line."""
    for settings in ({}, {"ASANCOL_TRACE": "u.trace"}):
        ran = run(["sh", "-c", f"ulimit -v 1000000; exec {program} ends_normally"], folder, **settings)
        expect((ran.returncode, len(ran.stderr.splitlines())), (127, 1), ran.stderr)
        expect(b"without asancol-cc" in ran.stderr, True, ran.stderr)
        expect(os.path.exists(f"{folder}/u.trace"), False, "a file")


PREINIT = """#include <stdlib.h>
static volatile int past = 8;
static char *volatile block, *volatile freed;
static void first(void)
{
    block = malloc(8);
    freed = malloc(8);
    free(freed);
    block[past] = 1;
    freed[1] = 1;
    free(block);
    free(block);
}
__attribute__((section(".preinit_array"), used)) static void (*const early)(void) = first;
int main(void) { return 0; }
"""


def check_preinit(suite, folder, compiler, flags):
    """What runs before all constructors, and before the recorder's own start."""
    write(folder, preinit_c=PREINIT)
    compiler.c(folder, ["preinit.c"], f"{folder}/preinit", "-w", *flags)
    ran = run(["./preinit"], folder, ASANCOL_TRACE="t.trace")
    _, texts, end = reports(suite.asancol, f"{folder}/t.trace")
    wanted = ["store 1 +1 heap-use-after-free", MARK, "free +0 double-free"]
    expect((ran.returncode, sorted(texts), end.split()[0]), (0, sorted(wanted), "closed"), "reports")


# Where there is no place for a trace.
NOWHERE = {
    "no folder": {"ASANCOL_TRACE": "none/t.trace"},
    "full disk": {"ASANCOL_TRACE": "/dev/full"},
    "no socket": {"ASANCOL_SOCKET": "none.sock"},
    "long name": {"ASANCOL_TRACE": "n" * 5000},
    "long name of a socket": {"ASANCOL_SOCKET": "n" * 500},
}


def build_lives(compiler, folder, sources, program, *flags, **settings):
    """Builds the program, and the library that it loads, beside it."""
    compiler.c(folder, sources, program, "-O1", "-w", "-pthread", *flags, **settings)
    compiler.c(folder, [f"{TESTS}/plugin.c"], f"{program}.so", "-fPIC", "-shared", "-Wl,-z,defs")


def lives_of(suite, compiler):
    """The program of most of these tests."""
    return suite.built(partial(build_lives, compiler), [f"{TESTS}/lives.c"], f"lives-{compiler}")


def every_of(suite, compiler):
    """The same, of which each access is recorded."""
    return suite.built(partial(build_lives, compiler), [f"{TESTS}/lives.c"], f"every-{compiler}", ASANCOL_ALL="1")


def tests(suite, compiler):
    program = lives_of(suite, compiler)
    for name, (status, fate, wanted) in LIVES.items():
        suite.test(f"{compiler} {name}", check_life, program, name, status, fate, wanted)
    suite.test(f"{compiler} fork", check_fork, program)
    suite.test(f"{compiler} fork beside the loader", check_fork_beside_the_loader, program)
    suite.test(f"{compiler} handlers beside the loader", check_handlers_beside_the_loader, program)
    suite.long_test(f"{compiler} fork in a thread", check_fork_in_a_thread, program)
    suite.test(f"{compiler} fork in handlers", check_fork_in_handlers, program)
    suite.test(f"{compiler} exec", check_exec, program)
    suite.test(f"{compiler} exec in vain beside faults", check_exec_in_vain_beside_faults, program)
    suite.test(f"{compiler} name that is taken", check_other_name, program)
    for name in ("loses_its_trace", "loses_its_trace_at_the_end"):
        for settings in ({}, {"ASANCOL_WHERE": "1"}):
            suite.test(f"{compiler} {name} {settings}", check_lost_trace, program, name, settings)
    suite.test(f"{compiler} no standard error", check_no_errors, program)
    suite.test(f"{compiler} limit of files from the start", check_small_files, program)
    for name, settings in NOWHERE.items():
        suite.test(f"{compiler} {name}", check_nowhere, program, settings)
    suite.test(f"{compiler} no trace wanted", check_unset, program)
    suite.test(f"{compiler} small quarantine", check_quarantine, program)
    suite.test(f"{compiler} limit of files", check_file_limit, every_of(suite, compiler))
    suite.test(f"{compiler} little memory", check_little_memory, program)
    for flags in ([], ["-static"]):
        suite.test(" ".join([str(compiler), "preinit", *flags]), check_preinit, compiler, flags)
