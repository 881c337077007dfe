"""Tests of what the recorder reads at addresses that it was given, or guesses: no program dies of that; and of the
message if one does."""

import re
import signal
from typing import Sequence

from support import RECORDER, TESTS, TOP, Compiler, Suite, expect, run, side_of, write
from testing.side import SIGNAL

# What of inside.c is a fault in the recorder, and how the program handles signals.
with open(f"{TESTS}/inside.c", encoding="utf-8") as text:
    FAULTS = re.findall(r'\{"(\w+)", ', text.read())
INSIDE = ("in_free", "at_a_fault", "in_copying")
HANDLERS = ("", "handler", "with_info")

# Without tables the frame pointer is what leads on, and here it leads to small numbers.
FRAMES = """
#include <stdlib.h>
__attribute__((noinline)) static void *get(long *pair) {
    void *m;
    register long *p __asm__("rbp") = pair;
    __asm__ volatile("" : "+r"(p)); m = malloc(8); __asm__ volatile("" : "+r"(p));
    return m; }
int main(void) {
    static const long ends[] = {0, 1, 6, 7, 4095, 4096, 4102, 4103, 1L << 47, 1L << 62, -4096, -8, -7, -1};
    for (unsigned i = 0; i < sizeof ends / sizeof *ends; i++)
        for (unsigned j = 0; j < sizeof ends / sizeof *ends; j++) {
            long pair[2] = {ends[i], ends[j]};
            __asm__ volatile("" : : "r"(pair) : "memory");
            free(get(pair)); }
    return 0; }
"""


def check_functions(_suite: Suite, folder: str, compiler: Compiler) -> None:
    argv = ["-iquote", RECORDER, "-iquote", TOP, f"{RECORDER}/base/memory.c"]
    compiler.c(folder, [f"{TESTS}/there.c"], "there", "-std=gnu11", *argv, native=True)
    ran = run(["./there"], folder)
    expect((ran.returncode, ran.stderr), (0, b""), "the program")


def check_frames(_suite: Suite, folder: str, compiler: Compiler) -> None:
    write(folder, frames_c=FRAMES)
    compiler.c(folder, ["frames.c"], "frames", "-O1", "-fomit-frame-pointer", "-fno-asynchronous-unwind-tables")
    ran = run(["./frames"], folder, ASANCOL_TRACE="t.trace", ASANCOL_WHERE="1")
    expect((ran.returncode, ran.stderr), (0, b""), "the program")


def check_inside(_suite: Suite, folder: str, program: str, faults: str, handlers: Sequence[str]) -> None:
    """A process that dies in the recorder says so, whether it handles signals itself or not. What the program does
    wrong is its own."""
    for name in faults.split():
        for handler in handlers:
            trace = f"{folder}/{name}-{handler}.trace"
            ran = run([program, name, handler], folder, ASANCOL_TRACE=trace, ASANCOL_WHERE="1")
            side = side_of(trace)
            is_inside, is_handled = name in INSIDE, name not in INSIDE and bool(handler)
            wanted = (0, b"handled\n") if is_handled else (-signal.SIGSEGV, b"")
            expect((ran.returncode, ran.stdout), wanted, f"{name} {handler}: {ran.stderr!r}")
            expect(side.inside, signal.SIGSEGV if is_inside else 0, f"whether {name} {handler} is in the recorder")
            expect(side.ending == SIGNAL, not is_handled, f"the ending of {name} {handler}")


def tests(suite: Suite, compiler: Compiler) -> None:
    suite.test(f"{compiler} there: functions", check_functions, compiler)
    suite.test(f"{compiler} there: frames", check_frames, compiler)
    for name, flags in (("inside", ["-O1"]), ("static", ["-O1", "-static"])):
        # The handlers of a static program are not seen.
        handlers = HANDLERS if name != "static" else HANDLERS[:1]
        program = suite.built(compiler.c, [f"{TESTS}/inside.c"], f"{name}-{compiler}", "-w", "-fno-builtin",
                              f"-iquote{RECORDER}", *flags)
        for faults in ("in", "of"):
            chosen = [it for it in FAULTS if (it in INSIDE) == (faults == "in")]
            suite.test(f"{compiler} there: faults {faults} the {'recorder' if faults == 'in' else 'program'}, {name}",
                       check_inside, program, " ".join(chosen), handlers)
