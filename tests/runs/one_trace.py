"""One trace, by a file, standard input or a terminal: its lines, and the status."""

import fcntl
import os
import pty
import subprocess

import long_trace
from program import (
    CUT, PAST_THE_END, PATIENCE, SOUND, Served, closing, cut, lines_of_each, opened_by, past_the_end,
    prepared, put, same, same_lines, sound,
)
from testing import golden, test
from testing.traces import HEADER, HEADER_2, closed, free, load, malloc, poison

# Read here, while the tree can be read: the cases run as nobody.
ROWS = golden.rows()

# A pipe with this room holds 256 bytes that are kept apart.
ROOM_OF_A_PIPE = 1 << 20
F_SETPIPE_SZ = 1031  # of Linux; Python's fcntl has it from 3.10 on


@test
def one_file(program):
    missing = "p0 end not-opened\n"
    for data, status, text in [
        (SOUND, 0, sound()),
        (PAST_THE_END, 1, past_the_end()),
        (CUT, 3, cut()),
    ]:
        path = put("trace", data)
        program.expect(["check", path], status, text)
        program.expect([], status, text, given=data)
        with open(path, "rb") as file:
            program.expect([], status, text, stdin=file)
        program.expect_unwritten(["check", path])
        program.expect_unwritten([], given=data)
    program.expect(["check", "missing"], 3, missing)
    program.expect_unwritten(["check", "missing"])


def kept_apart(trace):
    """The reading end of a pipe that holds a trace: each read gives one byte of it."""
    reader, writer = os.pipe2(os.O_DIRECT | os.O_CLOEXEC)
    fcntl.fcntl(writer, F_SETPIPE_SZ, ROOM_OF_A_PIPE)
    os.set_blocking(writer, False)
    for byte in trace:
        os.write(writer, bytes([byte]))
    os.close(writer)
    return reader


def expect_row(program, row, version):
    """Expects the lines of a row in a version: from a file, byte by byte, and cut after each byte, all of these in one
    run."""
    what = (row.name, version)
    trace = row.trace(version)
    wanted = golden.printed(row, version, len(trace))
    whole = (wanted.status, wanted.text(0).encode(), b"")
    argv = ["check", *row.options()]
    same(what, program.run([*argv, put("trace", trace)]), whole)
    reader = kept_apart(trace)
    try:
        same(what, program.run([*argv, "-"] if row.options() else [], stdin=reader), whole)
    finally:
        os.close(reader)
    names = [put(f"first {length}", trace[:length]) for length in range(len(trace) + 1)]
    texts = [golden.printed(row, version, length).text(length) for length in range(len(trace) + 1)]
    status, output, faults = program.run([*argv, *names])
    same(what, (status, faults), (3, b""))
    same_lines(what, output, "".join(texts))


@test
def golden_rows(program):
    """Each row of examples/golden, in each version that can spell it."""
    for row in ROWS:
        for version in row.versions():
            expect_row(program, row, version)


@test
def headers_and_codes(program):
    for data, status, text in [
        (b"", 3, "p0 end truncated events 0 offset 0 reports 0\n"),
        (HEADER, 3, "p0 end no-close events 0 offset 8 reports 0\n"),
        (b"ASTX\x01\0\0\0", 3, "p0 end malformed header events 0 offset 0 reports 0\n"),
        (b"ASTX\x01\0\0", 3, "p0 end truncated events 0 offset 0 reports 0\n"),
        (
            closed(header=b"ASTR\x04\0\0\0"),
            3,
            "p0 end malformed header events 0 offset 0 reports 0\n",
        ),
        (
            HEADER + malloc(0x1000, 5) + b"\x09\x07 and more",
            3,
            "p0 end malformed code events 1 offset 25 reports 0\n",
        ),
    ]:
        program.expect([], status, text, given=data)


@test
def header_of_the_other_version(program):
    """Records that were written for one version, after the header of each."""
    written_for_1 = [malloc(0x1000, 8), poison(0x1002, 6), load(1, 0x1003)]
    for data, status, text in [
        (
            closed(*written_for_1),
            1,
            "p0 #3 load 1 at 000000001003 bad 000000001003 heap-buffer-overflow shadow 02\n"
            "p0 end closed events 3 offset 53 reports 1\n",
        ),
        (
            closed(*written_for_1, header=HEADER_2),
            3,
            "p0 end malformed size events 1 offset 25 reports 0\n",
        ),
        (
            closed(poison(0x2000, 16, 1)),
            3,
            "p0 end malformed code events 1 offset 25 reports 0\n",
        ),
    ]:
        program.expect([], status, text, given=data)


@test
def input_that_cannot_be_read(program):
    text = "p0 end read-failed events 0 offset 0 reports 0\n"
    folder = os.open(".", os.O_RDONLY)
    try:
        program.expect([], 3, text, stdin=folder)
    finally:
        os.close(folder)
    program.expect([], 3, text, before=lambda: os.close(0))


@test
def many_reports(program):
    """None is lost of more than 5,000 reports of one trace."""
    count = 6000
    records = []
    lines = []
    for first in range(2, 2 + count, 3):
        records += [load(1, 0x1008), free(0x2000), malloc(0x1008, 8)]
        lines += [
            f"#{first} load 1 at 000000001008 bad 000000001008 heap-buffer-overflow shadow fa\n",
            f"#{first + 1} free at 000000002000 bad-free\n",
            f"#{first + 2} malloc 8 at 000000001008 bad-malloc\n",
        ]
    trace = closed(malloc(0x1000, 8), *records)
    lines.append(f"end closed events {count + 1} offset {len(trace)} reports {count}\n")
    texts = ["".join(f"p{process} {line}" for line in lines) for process in range(2)]
    put("trace", trace)
    program.expect([], 1, texts[0], given=trace)
    program.expect(["check", "trace"], 1, texts[0])
    for ring in ["1", "1024", "65536"]:
        program.expect(["check", "--ring", ring, "trace", "trace"], 1, "".join(texts))


@test
def one_long_trace(program):
    """200,000 blocks are held at once, one free releases 150,000 of them, and there are 100,000
    reports: by one thread, and twice over threads, also with --live. Memory is ample."""
    program.leave_out_with_checks("it takes minutes")
    long = long_trace.known_trace()
    trace = put("trace", long.trace)
    for files in [[trace], [trace, trace], ["--live", trace, trace]]:
        argv = ["check", "--quarantine", str(long_trace.QUARANTINE), *files]
        status, output, faults = program.run(argv)
        same(argv, (status, faults), (1, b""))
        for process in range(files.count(trace)):
            lines = lines_of_each(output)[f"p{process}"]
            same_lines([*argv, process], lines.encode(), long.text(process))
        if "--live" not in files:
            texts = [long.text(process) for process in range(len(files))]
            same_lines(argv, output, "".join(texts))


@test
def terminal(program):
    """A terminal says only once that no more comes, so no read follows one that gave no byte."""
    for argv in [[], ["check", "-"], ["check", "-", "trace"], ["check", "--live", "-", "trace"]]:
        put("trace", SOUND)
        ours, theirs = pty.openpty()
        # A line of five bytes, and that no more comes.
        os.write(ours, b"ASTR\n\x04")
        ran = program.run(argv, stdin=theirs)
        os.close(ours)
        os.close(theirs)
        text = "p0 end truncated events 0 offset 0 reports 0\n"
        same(argv, ran, (3, (text + sound(1) * ("trace" in argv)).encode(), b""))


@test
def closed_streams(program):
    """No file is taken for a standard stream that was closed."""
    put("sound", SOUND)
    put("past", PAST_THE_END)
    unread = "p{} end read-failed events 0 offset 0 reports 0\n"
    for argv, text in [
        (["-"], unread.format(0)),
        (["sound", "-"], sound(0) + unread.format(1)),
        (["-", "past", "sound"], unread.format(0) + past_the_end(1) + sound(2)),
    ]:
        program.expect(["check", *argv], 3, text, before=closing(0))
    program.expect(["check", "sound", "past"], 1, sound(0) + past_the_end(1), before=closing(0))
    for streams in [(1,), (0, 1), (0, 1, 2)]:
        ran = program.run(["check", "past", "sound"], before=closing(*streams))
        same(streams, ran, (4, b"", b""))
    ran = program.run(["check", "--verbose", "past", "sound"], before=closing(0, 2))
    same("check --verbose", ran, (1, (past_the_end(0) + sound(1)).encode(), b""))


@test
def folders_for_closed_streams(program):
    """A folder is in the place of each standard stream that was closed, as long as the program runs."""
    os.mkfifo("pipe")
    argv = [program.path, "check", "pipe"]
    running = subprocess.Popen(argv, preexec_fn=prepared(closing(0, 1, 2)))
    Served.running.append(running)
    with open("pipe", "wb"):
        opened = opened_by(running, 4)
    same(argv, opened, {0: "/", 1: "/", 2: "/", 3: os.path.realpath("pipe")})
    same(argv, running.wait(timeout=PATIENCE), 4)
    Served.running.remove(running)
