"""Options and words: what they say, and how a wrong one is refused."""

import os
import re
import shutil
import subprocess

from program import (
    CUT, HINT, HINTS, PAST_THE_END, SOUND, TWICE_FREED, Program, cut, holds, past_the_end, put,
    same, sound,
)
from testing import test
from testing.traces import HEADER, closed, free, load, malloc, unpoison


@test
def limit_of_events(program):
    two = load(1, 0x1000) * 2
    put("closed", closed(two))
    put("third", closed(two, load(1, 0x1000)))
    put("stray", HEADER + two + b"\x09")
    put("cut", HEADER + two)
    program.expect(
        ["check", "--limit", "2", "closed", "third", "stray", "cut"],
        3,
        "p0 end closed events 2 offset 29 reports 0\n"
        "p1 end too-many events 2 offset 28 reports 0\n"
        "p2 end too-many events 2 offset 28 reports 0\n"
        "p3 end no-close events 2 offset 28 reports 0\n",
    )
    program.expect(
        ["check", "closed", "--limit=1"], 3, "p0 end too-many events 1 offset 18 reports 0\n"
    )


@test
def greatest_limits(program):
    """The default is 2^24, and less can be set: here one more than 2^20. Neither events of one
    kind nor another runs out of memory."""
    program.leave_out_with_checks("it takes minutes")
    for argv, limit, event in [
        ([], 1 << 24, free(0)),
        (["--limit", "1048577"], (1 << 20) + 1, unpoison(0x1000, 8)),
    ]:
        put("most", closed(event * limit))
        put("more", closed(event * (limit + 1)))
        size = len(event) * limit
        program.expect(
            ["check", *argv, "most", "more"],
            3,
            f"p0 end closed events {limit} offset {9 + size} reports 0\n"
            f"p1 end too-many events {limit} offset {8 + size} reports 0\n",
        )
    with open("more", "rb") as file:
        text = f"p0 end closed events 1048578 offset {9 + 17 * 1048578} reports 0\n"
        program.expect([], 0, text, stdin=file)


@test
def quarantine(program):
    """A block stays in quarantine where its span is no larger than the quarantine."""
    for bound, argv in [
        (1 << 28, []),
        (72, ["--quarantine", "72"]),
        (1 << 21, ["--quarantine", "2097152"]),
        ((1 << 28) + 8, ["--quarantine=268435464"]),
    ]:
        for span, fault in [(bound, "double-free"), (bound + 8, "bad-free")]:
            size = span - 64
            if size > 1 << 28:
                continue
            put("trace", closed(malloc(0x10000, size), free(0x10000), free(0x10000)))
            program.expect(
                ["check", *argv, "trace"],
                1,
                f"p0 #3 free at 000000010000 {fault}\n"
                "p0 end closed events 3 offset 44 reports 1\n",
            )
    put("trace", TWICE_FREED)
    for bound in ["0", "71"]:
        program.expect(
            ["check", "--quarantine", bound, "trace"],
            1,
            "p0 #3 free at 000000001000 bad-free\np0 end closed events 3 offset 44 reports 1\n",
        )


@test
def ends_of_ranges(program):
    """The least and the greatest value of each option, and those next to them."""
    ranges = {
        "--quarantine": (0, 1 << 40),
        "--ring": (1, 1 << 16),
        "--workers": (1, 64),
        "--limit": (1, 1 << 24),
        "--memory": (1 << 20, 1 << 40),
    }
    for option, (least, most) in ranges.items():
        for value in [least, most]:
            program.expect(["check", option, str(value), "missing"], 3, "p0 end not-opened\n")
            argv = ["serve", "--count", "1", option, str(value), ""]
            program.expect(argv, 3, "", "cannot serve\n")
        for value in [least - 1, most + 1]:
            if value >= 0:
                said = [option, f"{least}..={most}"]
                program.expect_refused(["check", option, str(value), "missing"], *said)
                argv = ["serve", "--count", "1", option, str(value), "socket"]
                program.expect_refused(argv, *said)
    for count in ["1", "256"]:
        program.expect(["serve", "--count", count, ""], 3, "", "cannot serve\n")
    for count in ["0", "257", "4294967297"]:
        program.expect_refused(["serve", "--count", count, "socket"], "--count", "1..=256")


@test
def refused_words(program):
    put("trace", SOUND)
    for argv in [
        ["check"],
        ["check", "--rings", "1", "trace"],
        ["check", "--ring", "one", "trace"],
        ["check", "--ring", "1", "--ring", "2", "trace"],
        ["check", "--count", "1", "trace"],
        ["check", "trace", "--limit"],
        ["serve"],
        ["serve", "--count", "1"],
        ["serve", "socket"],
        ["serve", "--count", "1", "--ready", "ready"],
        ["serve", "--count", "1", "socket", "another"],
        ["-V"],
        ["-v"],
        ["check", "-v", "trace"],
        ["check", "trace", "-V"],
        ["serve", "-v", "--count", "1", "socket"],
        ["--verbose"],
        ["serve", "--count", "1", "--verbose", "socket"],
        ["--live"],
        ["check", "--live", "--live", "past"],
        ["check", "--version", "trace"],
        ["check", "-1"],
        ["--quarantine", "0"],
        ["--"],
        [""],
    ]:
        program.expect_refused(argv, *(HINTS[word] for word in argv if word in HINTS))
        with open("/dev/full", "wb") as full:
            same(argv, program.run(argv, stderr=full), (2, b"", None))
    holds("socket", not os.path.exists("socket"), "it is there")


@test
def word_that_is_no_text(program):
    put(b"caf\xe9", SOUND)
    said = "error: an argument is not valid UTF-8: '{}'\n"
    for argv, named in [
        ([b"check", b"caf\xe9"], r"caf\xe9"),
        ([b"\xff"], r"\xff"),
        ([b"check", b"trace", b"\xc3", b"\xc4"], r"\xc3"),
        ([b"check", b"caf\xe9" * 1000], r"caf\xe9" * 1000),
        ([b"check", b"\xff" * 4096], r"\xff" * 4096),
        ([b"check", b"\xff" * 4097], ""),
    ]:
        program.expect(argv, 2, "", said.format(named))
    with open(b"caf\xe9", "rb") as file:
        program.expect([], 0, sound(), stdin=file)


@test
def name_that_is_no_text(program):
    """The program does its work under a path that is not UTF-8, and names a word that is none."""
    os.mkdir(b"caf\xe9")
    moved = Program(shutil.copy(program.path, b"caf\xe9/asancol"))
    put("trace", PAST_THE_END)
    moved.expect(["check", "trace"], 1, past_the_end())
    moved.expect([], 1, past_the_end(), given=PAST_THE_END)
    moved.expect_refused(["trace"], HINT)
    said = r"error: an argument is not valid UTF-8: '\xff'" "\n"
    moved.expect(["check", b"\xff"], 2, "", said)
    moved.expect(["check", "a" * 5000, b"\xff"], 2, "", said)


@test
def help_texts(program):
    serve = "asancol serve [OPTIONS] --count <SENDERS> <SOCKET>\n"
    for argv, part in [
        (["--help"], "Usage: asancol < TRACE\n"),
        (["-h"], "       asancol check [OPTIONS] <FILE>...\n       " + serve),
        (["help"], "The status is 0 if there is nothing to report"),
        (["help"], "Without arguments it checks one trace from standard input, as process 0.\n\nThe "),
        (["check", "--help"], "\n\nThe status is 0 if there is nothing to report"),
        (["serve", "--help"], "\n\nThe status is 0 if there is nothing to report"),
        (["check", "--help"], "Usage: asancol check [OPTIONS] <FILE>...\n"),
        (["check", "--help"], "The traces, 1 to 256 of them: "),
        (["serve", "--help"], "before the first is read, 1 to 256: "),
        (["check", "--help"], "0 to 1099511627776 [default: 268435456]\n"),
        (["check", "--help"], "1 to 65536 [default: 1024]\n"),
        (["check", "--help"], "1 to 64 [default: 2]\n"),
        (["check", "--help"], "1 to 16777216 [default: 16777216]\n"),
        (["check", "--help"], "1048576 to 1099511627776 [default: no bound]\n"),
        (["check", "--help"], "Print each report when it is found, and the end lines last\n"),
        (["serve", "--help"], "Usage: " + serve),
    ]:
        status, output, faults = program.run(argv)
        same(argv, (status, faults), (0, b""))
        holds(argv, part.encode() in output, output.decode())
        program.expect_unwritten(argv)


@test
def release(program):
    status, output, faults = program.run(["--version"])
    same("--version", (status, faults), (0, b""))
    holds("--version", re.fullmatch(rb"asancol \d+\.\d+\.\d+\n", output), output)
    program.expect_unwritten(["--version"])


@test
def file_without_a_command(program):
    put("run.trace", SOUND)
    program.expect_refused(["run.trace"], "unrecognized subcommand 'run.trace'\n", HINT)


@test
def numbers_below_zero(program):
    for option, name in [
        ("--quarantine", "BYTES"),
        ("--ring", "EVENTS"),
        ("--workers", "WORKERS"),
        ("--limit", "EVENTS"),
        ("--memory", "BYTES"),
    ]:
        for value in ["-1", "-0"]:
            said = f"invalid value '{value}' for '{option} <{name}>': "
            program.expect_refused(["check", option, value, "missing"], said)
    program.expect_refused(
        ["serve", "--count", "-1", "socket"],
        "invalid value '-1' for '--count <SENDERS>': -1 is not in 1..=256",
    )


@test
def standard_input_among_files(program):
    put("sound", SOUND)
    put("-", CUT)
    for argv, text in [
        (["-"], past_the_end(0)),
        (["sound", "-", "sound"], sound(0) + past_the_end(1) + sound(2)),
        (["-", "sound"], past_the_end(0) + sound(1)),
        (["sound", "--", "-"], sound(0) + past_the_end(1)),
    ]:
        program.expect(["check", *argv], 1, text, given=PAST_THE_END)
    program.expect(["check", "-", "./-"], 3, past_the_end(0) + cut(1), given=PAST_THE_END)
    text = "p0 end too-many events 1 offset 25 reports 0\n"
    program.expect(["check", "--limit", "1", "-"], 3, text, given=PAST_THE_END)
    names = ["sound"] * 255
    texts = "".join(sound(i) for i in range(255)) + past_the_end(255)
    program.expect(["check", *names, "-"], 1, texts, given=PAST_THE_END)
    twice = "error: '-' is given more than once\n"
    program.expect(["check", "-", "sound", "-"], 2, "", twice, given=PAST_THE_END)
    program.expect(["check", *names, "-", "-"], 2, "", "too many files\n", given=PAST_THE_END)


@test
def what_became_of_each_file(program):
    put("sound", SOUND)
    put("past", PAST_THE_END)
    put("two\nlines", CUT)
    os.mkdir("folder")
    argv = ["check", "--verbose", "sound", "-", "missing", "two\nlines", "folder"]
    text = (
        sound(0)
        + past_the_end(1)
        + "p2 end not-opened\n"
        + cut(3)
        + "p4 end read-failed events 0 offset 0 reports 0\n"
    )
    lines = (
        "p0 sound: closed events 2 offset 36 reports 0\n"
        "p1 -: closed events 2 offset 36 reports 1\n"
        "p2 missing: not-opened\n"
        "p3 two\\nlines: truncated events 1 offset 25 reports 0\n"
        "p4 folder: read-failed events 0 offset 0 reports 0\n"
    )
    program.expect(argv, 3, text, lines, given=PAST_THE_END)
    with open("/dev/full", "wb") as full:
        ran = program.run(argv, given=PAST_THE_END, stdout=full)
        same(argv, ran, (4, None, lines.encode()))
        ran = program.run(argv, given=PAST_THE_END, stderr=full)
        same(argv, ran, (3, text.encode(), None))
    line = "p0 past: closed events 2 offset 36 reports 1\n"
    for more in [[], ["--live"], ["--memory", str(1 << 20)]]:
        program.expect(["check", "past", "--verbose", *more], 1, past_the_end(), line)
        names = ["past", "sound"]
        both = line + "p1 sound: closed events 2 offset 36 reports 0\n"
        argv = ["check", "--verbose", *more, *names]
        same(argv, program.run(argv)[2], both.encode())
    name = put("é \"q\" \\ '\t", SOUND)
    line = "p0 é \\\"q\\\" \\\\ \\'\\t: closed events 2 offset 36 reports 0\n"
    program.expect(["check", "--verbose", name], 0, sound(), line)
    program.expect(["check", "--", "--verbose"], 3, "p0 end not-opened\n")
    status, both, _ = program.run(["check", "--verbose", "past"], stderr=subprocess.STDOUT)
    holds("check --verbose", both.startswith(past_the_end().encode()), both)
