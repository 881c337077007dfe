"""Outputs and memory that run out."""

import os
import resource
import signal

import refused_calls
from program import PAST_THE_END, holds, past_the_end, put, same, with_refused
from testing import test
from testing.traces import closed, free


@test
def output_that_ends_early(program):
    """The first bytes go out, up to the available room."""
    put("trace", PAST_THE_END)
    text = past_the_end().encode()
    for argv in [[], ["check", "trace"]]:
        for room in range(len(text) + 1):

            def bound():
                resource.setrlimit(resource.RLIMIT_FSIZE, (room, room))
                signal.signal(signal.SIGXFSZ, signal.SIG_IGN)

            how = {"given": PAST_THE_END, "before": bound, "restore_signals": False}
            with open("output", "wb") as output:
                ran = program.run(argv, stdout=output, **how)
            with open("output", "rb") as output:
                went_out = output.read()
            wanted = (1 if room == len(text) else 4, None, b"")
            same((argv, room), (ran, went_out), (wanted, text[:room]))


@test
def long_text_in_parts(program):
    """The first part of a long text is out before the rest is written, so nobody waits for all of it."""
    argv = ["check", put("frees", closed(*[free(0x2000)] * 1000))]
    status, text, _ = program.run(argv)
    same(argv, status, 1)
    ran = with_refused(program, argv, refused_calls.WRITES, lambda number: number > 1)
    same(argv, (ran.status, ran.faults), (4, b""))
    holds(argv, 0 < len(ran.output) < len(text) and text.startswith(ran.output), f"{len(ran.output)} of {len(text)}")


@test
def limit_of_files(program):
    """Where the signal of a limit on files is not ignored, it ends the program, after all that there is room for."""
    put("trace", PAST_THE_END)

    def bound():
        resource.setrlimit(resource.RLIMIT_FSIZE, (9, 9))
        resource.setrlimit(resource.RLIMIT_CORE, (0, 0))

    with open("output", "wb") as output:
        status = program.run(["check", "trace"], stdout=output, before=bound)[0]
    with open("output", "rb") as output:
        same("limit", (status, output.read()), (-signal.SIGXFSZ, past_the_end().encode()[:9]))


@test
def no_memory_to_begin(program):
    """There is a bound on memory under which the program starts, and has none to begin."""
    program.leave_out_with_checks("it ends otherwise")
    put("trace", PAST_THE_END)
    for argv in [[], ["check", "trace"], ["check", *["trace"] * 100], ["--help"]]:
        ended = set()
        for kibibytes in range(0, 2048, 4):

            def bound():
                resource.setrlimit(resource.RLIMIT_DATA, (kibibytes << 10, kibibytes << 10))

            ran = program.run(argv, given=PAST_THE_END, before=bound)
            ended.add(ran)
            if ran == (3, b"", b"no memory\n"):
                break
            # With less than that it does not even start.
            holds(argv, ran[0] == 127 or ran[0] < 0, ran)
        else:
            holds(argv, False, ended)


@test
def nothing_is_read_without_memory(program):
    """Under each bound on memory at which it says that there was none to begin, its input is as it was: the place in a
    file is that of both."""
    program.leave_out_with_checks("it ends otherwise")
    put("trace", PAST_THE_END)
    said = 0
    for kibibytes in range(0, 2048, 4):

        def bound():
            resource.setrlimit(resource.RLIMIT_DATA, (kibibytes << 10, kibibytes << 10))

        with open("trace", "rb") as trace:
            status, _, faults = program.run([], stdin=trace, before=bound)
            if faults == b"no memory\n":
                same(kibibytes, os.lseek(trace.fileno(), 0, os.SEEK_CUR), 0)
                said += 1
        if status == 1:
            break
    holds("no memory", said, "was said under no bound")
