"""Where a report is: its line, those of its block, and the event at which a debugger stands."""

import os
import re
import shutil
import signal

from lives import lives_of
from support import CC, RECORDER, Trace, build, expect, leave_out, placed, run, side_of, write
from testing.side import EXIT


def check_stop(suite, folder, program):
    """The process gets SIGTRAP before an event, once. What it has recorded stands, and the event's place is filled."""
    ran = run([program, "ends_normally"], folder, ASANCOL_TRACE="t.trace")
    count = len(Trace(f"{folder}/t.trace").events)
    for stop in (1, count, count + 1):
        ran = run([program, "ends_normally"], folder, ASANCOL_TRACE=f"{stop}.trace", ASANCOL_STOP=str(stop))
        trace = Trace(f"{folder}/{stop}.trace")
        if stop > count:
            expect((ran.returncode, len(trace.events), trace.is_closed), (0, count, True), "past the end")
        else:
            expect((ran.returncode, len(trace.events)), (-signal.SIGTRAP, stop), f"stop at {stop}")
    ran = run(["sh", "-c", f"trap '' TRAP; exec {program} ends_normally"], folder, ASANCOL_TRACE="i.trace",
              ASANCOL_STOP="2")
    expect(ran.returncode, -signal.SIGTRAP, "if it is ignored")


def check_debugger(suite, folder, compiler):
    """The commands of docs/RECORDER.md: a debugger stands at the access of the report."""
    build([CC, "-g", f"{RECORDER}/../examples/bug.c", "-o", "bug"], folder, ASANCOL_CC=compiler.name)
    argv = ["gdb", "-nx", "-batch", "-ex", "run", "-ex", "backtrace", "-ex", "continue", "--args", "./bug", "Alice"]
    text = run(argv, folder, ASANCOL_TRACE="/dev/null", ASANCOL_STOP="3").stdout.decode()
    expect(re.search(r"received signal SIGTRAP", text) is not None, True, text)
    expect(re.search(r"in main .*bug\.c:11\n", text) is not None, True, text)
    expect("exited normally" in text, True, text)


def check_where(suite, folder, compiler, level):
    """The report has the line of its place, and those where the block was made and freed."""
    source = [
        "#include <stdlib.h>",
        "#include <string.h>",
        "static char *make(void) {",
        "    return strdup(\"Alice\"); }",
        "static void give_back(char *p) {",
        "    free(p); }",
        "int main(void) {",
        "    char *volatile p = make();",
        "    give_back(p);",
        "    ((volatile char *)p)[2] = 1;",
        "    return 0; }",
    ]
    with open(f"{folder}/w.c", "w") as file:
        file.write("\n".join(source) + "\n")
    compiler.c(folder, ["w.c"], f"{folder}/w", level, "-w")
    # What a trace that is gone has left.
    write(folder, w_trace_where="of another trace")
    ran = run(["./w"], folder, ASANCOL_TRACE="w.trace", ASANCOL_WHERE="1")
    expect((ran.returncode, ran.stderr), (0, b""))
    said, _ = placed(suite.asancol, f"{folder}/w.trace")
    expect([(it.kind, it.line) for it in said], [("store", "w.c:10")], "the access")
    side = side_of(f"{folder}/w.trace")
    fault = side.fault_at(said[0].number)
    expect((side.is_good, side.argv(), side.ending), (True, ["./w"], EXIT), "the head")
    events = len(Trace(f"{folder}/w.trace").events)
    expect((side.events, side.fault_count, fault.block_size), (events, 1, 6), "events, faults, and the block")
    places = side.lines([fault.allocated[0], fault.freed[0]])
    expect([line for _, line in places], ["w.c:4", "w.c:6"], "where the block was made and freed")
    expect(os.stat(f"{folder}/w.trace.where").st_blocks * 512 < 1 << 20, True, "that the file is sparse")


def check_many_places(suite, folder, compiler):
    """Many reports of one place are one fault."""
    source = """
#include <stdlib.h>
int main(void)
{
    char *blocks[300];
    for (int i = 0; i < 300; i++)
        blocks[i] = malloc(i % 10 + 1);
    for (int i = 0; i < 300; i++)
        ((volatile char *)blocks[i])[i % 10 + 1] = 1;
    for (int i = 0; i < 300; i++)
        free(blocks[i]);
    return 0;
}
"""
    write(folder, m_c=source)
    compiler.c(folder, ["m.c"], f"{folder}/m", "-w")
    run(["./m"], folder, ASANCOL_TRACE="m.trace", ASANCOL_WHERE="1")
    said, _ = placed(suite.asancol, f"{folder}/m.trace")
    side = side_of(f"{folder}/m.trace")
    expect((len(said), side.fault_count), (300, 1), "reports, and faults")
    first = min(it.number for it in said)
    expect([side.event_of(side.fault_of(it.number)) for it in said], [first] * 300, "the first event of their fault")
    expect(side.lines(side.faults()[0].allocated[:1])[0][0], "main", "where they were allocated")


# A pool hands out a block again, in another thread.
ANEW = """
#include <pthread.h>
#include <stdlib.h>
int __asan_update_allocation_context(void *);
static void *hand_out(void *block) {
    return __asan_update_allocation_context(block) ? block : NULL; }
int main(int count, char **argv)
{
    char *volatile block = malloc(atol(argv[1]));
    pthread_t thread;
    void *handed = NULL;
    pthread_create(&thread, NULL, hand_out, block);
    pthread_join(thread, &handed);
    block[atol(argv[1])] = 1;
    free(handed);
    block = NULL;
    return handed == NULL;
}
"""


def check_anew(suite, folder, compiler):
    """The block of a report was allocated where the program has said so last; also in a library."""
    write(folder, anew_c=ANEW)
    compiler.c(folder, ["anew.c"], f"{folder}/anew", "-w", "-pthread")
    write(folder, main_c="int handed(int, char **); int main(int n, char **w) { return handed(n, w); }")
    compiler.c(folder, ["anew.c"], f"{folder}/libanew.so", "-w", "-pthread", "-shared", "-fPIC", "-Dmain=handed")
    compiler.c(folder, ["main.c", "./libanew.so"], f"{folder}/main", "-w", f"-Wl,-rpath,{folder}")
    for program in ("anew", "main"):
        expect(run([f"./{program}", "10"], folder).returncode, 0, "unrecorded")
        for full in ("0", "1"):
            for size in ("10", "100000"):
                settings = {"ASANCOL_TRACE": "t.trace", "ASANCOL_WHERE": "1", "ASANCOL_FULL": full}
                expect(run([f"./{program}", size], folder, **settings).returncode, 0, program)
                side = side_of(f"{folder}/t.trace")
                (fault,) = side.faults()
                expect((side.lines(fault.allocated[:1])[0], fault.threads[1]), (("hand_out", "anew.c:6"), 1),
                       f"{program} {full} {size}")
                os.unlink(f"{folder}/t.trace")


# Blocks that are freed before one of a size is allocated, the size, and where a load is from its start.
FAR = [(0, 10, 100), (0, 10, 5000), (0, 10, 60000), (0, 10, 150000), (0, 1000, 9999), (0, 10, -3000), (0, 10, -60000),
       (0, 100000, 105000), (0, 100000, -5000), (0, 1 << 20, -4000), (0, 1 << 20, 1 << 20 | 5000), (3, 10, 150000),
       (3, 10, 250000), (3, 200000, 250000), (3, 200000, 500000)]


def check_far(suite, folder, compiler):
    """However far from a block an access is, that is named, if none is nearer; also in memory of freed blocks."""
    source = """
#include <stdlib.h>
int main(int count, char **argv)
{
    int others = atoi(argv[1]);
    char *other[3], *volatile p;
    for (int i = 0; i < others; i++)
        other[i] = malloc(200000);
    for (int i = 0; i < others; i++)
        free(other[i]);
    p = malloc(atol(argv[2]));
    return ((volatile char *)p)[atol(argv[3])] & 0;
}
"""
    write(folder, f_c=source)
    compiler.c(folder, ["f.c"], f"{folder}/f", "-w")
    for others, size, at in FAR:
        argv = [str(others), str(size), str(at)]
        settings = {"ASANCOL_TRACE": "f.trace", "ASANCOL_WHERE": "1", "ASANCOL_QUARANTINE": "0"}
        expect(run(["./f", *argv], folder, **settings).returncode, 0, argv)
        side = side_of(f"{folder}/f.trace")
        blocks = [(it.block_size, side.lines(it.allocated[:1])[0][1]) for it in side.faults()]
        expect(blocks, [(size, "f.c:11")], argv)
        os.unlink(f"{folder}/f.trace")


# Calls of two functions by the bits of a number, the upper ones first; and then a malloc, a free, or a load.
PATHS = """
#include <stdlib.h>
enum { BLOCKS = 4096, STEP = 61 };
static char *volatile blocks[BLOCKS];
static volatile char *left(unsigned, unsigned, int);
static volatile char *right(unsigned, unsigned, int);
static volatile char *act(unsigned number, unsigned path, int depth)
{
    if (depth != 0)
        return (path >> (depth - 1) & 1 ? right : left)(number, path, depth - 1);
    if (blocks[number] == NULL)
        return blocks[number] = malloc(8);
    if (path == number)
        return blocks[number] + *(volatile char *)blocks[number] * 0;
    free(blocks[number]);
    return NULL;
}
#define CALLED { volatile char *volatile found = act(number, path, depth); return found; }
static volatile char *left(unsigned number, unsigned path, int depth) CALLED
static volatile char *right(unsigned number, unsigned path, int depth) CALLED
int main(int count, char **argv)
{
    int depth = atoi(argv[1]);
    for (unsigned i = 0; i < BLOCKS; i++)
        act(i, i, depth);
    for (unsigned i = 0; i < BLOCKS; i += STEP)
        act(i, i ^ 1365, depth);
    for (unsigned i = 0; i < BLOCKS; i += STEP)
        act(i, i, depth);
    return 0;
}
"""


def check_paths(suite, folder, compiler):
    """Each of thousands of stacks has all its calls, however many it has in common with others."""
    write(folder, p_c=PATHS)
    compiler.c(folder, ["p.c"], "p", "-O1", "-fno-inline", "-fno-optimize-sibling-calls", "-w")
    for depth in (12, 14, 20):
        trace = f"{depth}.trace"
        run(["./p", str(depth)], folder, ASANCOL_TRACE=trace, ASANCOL_WHERE="1")
        side = side_of(f"{folder}/{trace}")
        numbers, faults = range(0, 4096, 61), side.faults()
        expect(len(faults), len(numbers), "faults")
        known = list({call for it in faults for call in (*it.place, *it.allocated, *it.freed)})
        names = {call: name for call, (name, _) in zip(known, side.lines(known))}
        for number, fault in zip(numbers, faults):
            for calls, path in ((fault.place, number), (fault.allocated, number), (fault.freed, number ^ 1365)):
                ways = [("left", "right")[path >> bit & 1] for bit in range(depth)]
                wanted = [*(name for way in ways for name in ("act", way)), "act", "main"][:32]
                found = [names[it] for it in calls]  # and then what has called main
                expect(found[: len(wanted)], wanted, f"{number} of depth {depth}")


def tests(suite, compiler):
    suite.test(f"{compiler} stop", check_stop, lives_of(suite, compiler))
    if shutil.which("gdb"):
        suite.test(f"{compiler} debugger", check_debugger, compiler)
    else:
        leave_out("gdb is not there")
    for level in ("-O0", "-O2"):
        suite.test(f"{compiler} where {level}", check_where, compiler, level)
    suite.test(f"{compiler} where, many", check_many_places, compiler)
    suite.test(f"{compiler} where, said anew", check_anew, compiler)
    suite.test(f"{compiler} where, far from a block", check_far, compiler)
    suite.test(f"{compiler} where, by many ways", check_paths, compiler)
