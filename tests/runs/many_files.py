"""Many files at once, of all kinds."""

import os
import threading

from program import PAST_THE_END, SOUND, past_the_end, put, sound
from testing import test


@test
def as_many_processes_as_files(program):
    names = [put(f"trace {i}", [SOUND, PAST_THE_END][i % 2]) for i in range(256)]
    texts = "".join([sound, past_the_end][i % 2](i) for i in range(256))
    program.expect(["check", *names], 1, texts)
    program.expect(["check", "--workers", "64", "--ring", "1", *names], 1, texts)
    lines = "".join(
        f"p{i} trace {i}: closed events 2 offset 36 reports {i % 2}\n" for i in range(256)
    )
    program.expect(["check", "--verbose", *names], 1, texts, lines)
    program.expect(["check", *names, "trace 0"], 2, "", "too many files\n")
    program.expect(["check", *["missing"] * 257], 2, "", "too many files\n")


@test
def each_number_of_files(program):
    """One worker has them all, so its share has each size."""
    program.leave_out_with_checks("it takes minutes")
    names = [put(f"trace {i}", [PAST_THE_END, SOUND][i % 2]) for i in range(256)]
    texts = [[past_the_end, sound][i % 2](i) for i in range(256)]
    for count in range(1, 257):
        argv = ["check", "--workers", "1", *names[:count]]
        program.expect(argv, 1, "".join(texts[:count]))


@test
def limits_of_each_size(program):
    """A limit that no trace reaches changes nothing: powers of two and of ten, and their neighbors."""
    put("past", PAST_THE_END)
    put("sound", SOUND)
    powers = [*(2**i for i in range(2, 25)), *(10**i for i in range(1, 8))]
    for limit in sorted({it + step for it in powers for step in (-1, 0, 1)} - {2**24 + 1}):
        program.expect(["check", "--limit", str(limit), "past", "sound"], 1, past_the_end(0) + sound(1))


@test
def one_file_twice(program):
    path = put("trace", PAST_THE_END)
    program.expect(["check", path, path], 1, past_the_end(0) + past_the_end(1))


@test
def files_of_all_kinds(program):
    put("past", PAST_THE_END)
    put("sound", SOUND)
    put(" past ", SOUND)
    put("--limit", SOUND)
    os.mkdir("folder")
    os.symlink("missing", "link")
    os.chmod(put("unreadable", SOUND), 0)
    argv = ["past", "missing", "sound", "folder", "", " past ", "link"]
    text = (
        past_the_end(0)
        + "p1 end not-opened\n"
        + sound(2)
        + "p3 end read-failed events 0 offset 0 reports 0\n"
        + "p4 end not-opened\n"
        + sound(5)
        + "p6 end not-opened\n"
    )
    program.expect(["check", *argv], 3, text)
    program.expect_unwritten(["check", *argv])
    for ring in ["1", "2", "65536"]:
        for workers in ["1", "3", "64"]:
            program.expect(["check", "--ring", ring, "--workers", workers, *argv], 3, text)
    program.expect(["check", "past", "--", "--limit"], 1, past_the_end(0) + sound(1))
    if os.geteuid() != 0:
        program.expect(["check", "unreadable", "sound"], 3, "p0 end not-opened\n" + sound(1))


@test
def named_pipe(program):
    os.mkfifo("pipe")
    sending = threading.Thread(target=put, args=("pipe", PAST_THE_END), daemon=True)
    sending.start()
    program.expect(["check", "pipe"], 1, past_the_end())
    sending.join()
