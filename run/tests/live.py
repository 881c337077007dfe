"""Reports that processes print where they come up, in order with their other output."""

import re
import time
from typing import List

from support import CC, REPORT, TESTS, Ran, Suite, expect, expect_in, expect_not_in, expect_ran, write_text
from testing.programs import call, kill_tree

# What a line stands for: the program's own, the title of a report, and those that follow at the end.
MARK = re.compile(r"<(.*)>$|==\d+==ERROR: (?:asancol|AddressSanitizer): ([a-z-]+)|(SUMMARY|asancol): ")

PAST = ["<past>", "heap-buffer-overflow"]
FREED = ["<freed>", "heap-use-after-free"]


def build(folder: str) -> str:
    program = f"{folder}/live"
    call([CC, "-g", "-w", "-pthread", f"{TESTS}/live.c", "-o", program], check=True)
    return program


def marks(text: str) -> List[str]:
    """Returns what stands in a text, in its order."""
    found = filter(None, map(MARK.match, text.splitlines()))
    return [f"<{it[1]}>" if it[1] else it[2] or it[3] for it in found]


def in_order(ran: Ran, *wanted: str) -> None:
    """Expects these marks up to the end of the program."""
    seen = marks(ran.err)
    expect(seen[:seen.index("<end>") + 1], [*wanted, "<end>"], ran.err)


def run_alone(suite: Suite, *argv: str, **settings: str) -> Ran:
    return suite.run_argv(argv, ASANCOL_REPORT=REPORT, **{"ASANCOL_RUN": "", **settings})


def check_order(suite: Suite, folder: str) -> None:
    """Under asancol-run and without it the first report of each place stands where it came up, and once."""
    program = build(folder)
    for run in (lambda *words: suite.run("--", *words, ASANCOL_REPORT=REPORT), lambda *words: run_alone(suite, *words)):
        ran = run(program, "past", "freed", "past", "twice", "overlap")
        in_order(ran, *PAST, *FREED, "<past>", "<twice>", "attempting", "<overlap>", "memcpy-param-overlap")
        expect_ran(ran, 99, "asancol: heap-buffer-overflow in past ", ": 2 times, 1 process\n",
                   "asancol: 5 reports at 4 places;")
        for title in ("heap-buffer-overflow: store", "heap-use-after-free: load", "attempting double-free", "memcpy"):
            expect(ran.err.count(f"ERROR: asancol: {title}"), 1, ran.err)
        expect_in(ran.err, "in past ", "live.c:", "allocated at")


def check_ways(suite: Suite, folder: str) -> None:
    """--live=end has all reports at the end, as has --log-file; and --live=exit when a process ends."""
    program = build(folder)
    for words in (["--live=end"], ["--live", "exit"]):
        ran = suite.run(*words, "--", program, "past", "freed", ASANCOL_REPORT=REPORT)
        expect(marks(ran.err)[:5], ["<past>", "<freed>", "<end>", PAST[1], FREED[1]], ran.err)
    ran = suite.run("--log-file", f"{folder}/log", "--", program, "past", ASANCOL_REPORT=REPORT)
    expect(marks(ran.err), ["<past>", "<end>"], "the log has it")
    with open(f"{folder}/log", encoding="utf-8") as log:
        expect_in(log.read(), "heap-buffer-overflow")
    refused = suite.run("--live=never", "--", program)
    expect_ran(refused, 125, "--live", "is not one of access, exit and end")


def check_same_block(suite: Suite, folder: str) -> None:
    """A report that may follow from an earlier one of its process is a line, and is not said again."""
    ran = suite.run("--", build(folder), "same", ASANCOL_REPORT=REPORT)
    in_order(ran, "<same>", "heap-use-after-free", "<on the same block>", "asancol")
    first, second = ran.err.split("<on the same block>")
    expect_in(first, "in first_of ", "freed at", "allocated at")
    expect_in(second, "\nasancol: also at ", "in second_of: load of 1 byte, byte 1 of the block\n")
    expect_not_in(second, "freed at", "first_of live", "may follow")
    expect(second.count("second_of"), 1, second)


def check_many(suite: Suite, folder: str) -> None:
    """A place that comes up again and again is printed once, and counted at the end."""
    ran = suite.run("--", build(folder), "often", ASANCOL_REPORT=REPORT)
    in_order(ran, "<often>", "heap-buffer-overflow")
    expect_ran(ran, 99, ": 1000 times, 1 process\n", "asancol: 1000 reports at 1 place; ")


def check_as_asan(suite: Suite, folder: str) -> None:
    """The order is that of AddressSanitizer if it goes on; and with its text too."""
    program, native = build(folder), f"{folder}/native"
    flags = ["-fsanitize=address", "-fsanitize-recover=address"]
    call(["cc", "-g", "-w", "-pthread", *flags, f"{TESTS}/live.c", "-o", native], check=True)
    for option, words in (("asan", ["past", "freed", "overlap", "same"]), ("asancol", ["freed", "overlap", "past"])):
        asan = suite.run_argv([native, *words], ASAN_OPTIONS="halt_on_error=0:detect_leaks=0").err
        wanted = [it for it in marks(asan) if it not in ("SUMMARY", "asancol")]
        ran = suite.run("--format", option, "--", program, *words, ASANCOL_REPORT=REPORT)
        expect([it for it in marks(ran.err) if it not in ("SUMMARY", "asancol")], wanted, ran.err + asan)


def check_own_files(suite: Suite, folder: str) -> None:
    """What a harness keeps of the standard error of a test has its report, and the end of the run has it too."""
    program = build(folder)
    line = f"{program} past 2> one.log; {program} freed 2> two.log; {program} past 2> three.log"
    ran = suite.run("--", "sh", "-c", line, cwd=folder, ASANCOL_REPORT=REPORT)
    for name, wanted in (("one", PAST), ("two", FREED), ("three", PAST)):
        with open(f"{folder}/{name}.log", encoding="utf-8") as log:
            expect(marks(log.read()), [*wanted, "<end>"], name)
    expect_ran(ran, 99, "heap-buffer-overflow: store of 1 byte (2 times, 2 processes)", "heap-use-after-free",
               "asancol: 3 reports at 2 places; ")
    ran = run_alone(suite, "sh", "-c", f"{program} past 2> {folder}/alone.log; echo $?")
    expect((ran.out, ran.err), ("99\n", ""), "its own run")
    with open(f"{folder}/alone.log", encoding="utf-8") as log:
        expect(marks(log.read()), [*PAST, "<end>", "asancol", "SUMMARY"], "alone")


def check_children(suite: Suite, folder: str) -> None:
    """Forked children have the reports on their own standard errors; threads have them in turn."""
    program = build(folder)
    ran = suite.run("--", program, "children", cwd=folder, ASANCOL_REPORT=REPORT)
    expect_ran(ran, 99, "heap-buffer-overflow: store of 1 byte (2 times, 2 processes)")
    for name in ("child-0", "child-1"):
        with open(f"{folder}/{name}", encoding="utf-8") as log:
            expect(marks(log.read()), ["<child begins>", "heap-buffer-overflow", "<child ends>"], name)
    ran = suite.run("--", program, "threads", ASANCOL_REPORT=REPORT)
    seen = marks(ran.err)
    expect((seen[0], sorted(seen[1:3]), seen[3]),
           ("<threads>", ["heap-buffer-overflow", "heap-use-after-free"], "<end>"), ran.err)
    expect_in(ran.err, "in thread T1")


def check_at_the_end(suite: Suite, folder: str) -> None:
    """What could not be printed where it came up follows: in a signal handler, with a closed standard error, or if
    nobody reads it."""
    program = build(folder)
    ran = suite.run("--", program, "handles", ASANCOL_REPORT=REPORT)
    expect(marks(ran.err)[:3], ["<handles>", "<end>", "heap-use-after-free"], ran.err)
    for closing in ("2>&-", "2> /dev/null"):
        ran = suite.run("--", "sh", "-c", f"{program} past {closing}", ASANCOL_REPORT=REPORT)
        expect_in(ran.err, "heap-buffer-overflow")
    began = time.monotonic()
    full = "import fcntl, os, subprocess, sys\n" \
           "ends = os.pipe()\n" \
           "os.set_blocking(ends[1], False)\n" \
           "try:\n    while True: os.write(ends[1], b'x' * 4096)\n" \
           "except BlockingIOError: os.set_blocking(ends[1], True)\n" \
           "sys.exit(subprocess.call(sys.argv[1:], stderr=ends[1]))\n"
    write_text(f"{folder}/full.py", full)
    quiet = f"{folder}/quiet"
    write_text(f"{folder}/quiet.c", "#include <stdlib.h>\nint main(void) { char *volatile p = malloc(8); p[8] = 1;\n"
               "p[9] = 2;\np[10] = 3;\np[11] = 4;\np[12] = 5;\nfree(p);\nreturn 0; }\n")
    call([CC, "-g", "-w", f"{folder}/quiet.c", "-o", quiet], check=True)
    ran = suite.run("--", "python3", f"{folder}/full.py", quiet, ASANCOL_REPORT=REPORT)
    expect_ran(ran, 99, "heap-buffer-overflow", "asancol: 5 reports at ")
    expect(time.monotonic() - began < 20, True, "nobody hangs")


def check_reader_is_gone(suite: Suite, folder: str) -> None:
    """The signal of a pipe without a reader does not come from a report."""
    write_text(f"{folder}/gone.py", "import os, subprocess, sys\nends = os.pipe()\nos.close(ends[0])\n"
               "sys.exit(subprocess.call(sys.argv[1:], stderr=ends[1], restore_signals=True))\n")
    write_text(f"{folder}/quiet.c", "#include <stdlib.h>\n"
               "int main(void) { char *volatile p = malloc(8); p[8] = 1; return 7; }\n")
    call([CC, "-g", "-w", f"{folder}/quiet.c", "-o", f"{folder}/quiet"], check=True)
    ran = suite.run("--exitcode=0", "--", "python3", f"{folder}/gone.py", f"{folder}/quiet", ASANCOL_REPORT=REPORT)
    expect_ran(ran, 7, "heap-buffer-overflow")


def check_bound(suite: Suite, folder: str) -> None:
    """A report that does not come is waited for a while, and three times at most."""
    program = build(folder)
    for way in ("stays", "dies", "killed"):
        began = time.monotonic()
        started = suite.start("--", "sh", "-c", f"{program} past freed same twice overlap; echo over",
                              FAKE=way)
        expect(started.line(), "over\n", way)
        expect(time.monotonic() - began < 8, True, f"{way}: {time.monotonic() - began}")
        kill_tree(started.pid)
        started.communicate()


LOOKS = """#!/bin/sh
readlink /proc/$$/fd/* >> {log}
exec llvm-symbolizer "$@"
"""


def check_not_printed(suite: Suite, folder: str) -> None:
    """A process does not wait for a report that is not printed: nothing keeps its connection open, also in what
    asancol-report starts; and with lines as a compiler's, or annotations, it does not even ask."""
    program = build(folder)
    write_text(f"{folder}/symbolizer", LOOKS.format(log=f"{folder}/descriptors"), 0o755)
    write_text(f"{folder}/known", "fun:past\n")
    ran = suite.run("--suppressions", f"{folder}/known", "--", program, "past", ASANCOL_REPORT=REPORT,
                    ASANCOL_SYMBOLIZER=f"{folder}/symbolizer")
    expect_ran(ran, 0, "asancol: no reports, 1 suppressed; ")
    with open(f"{folder}/descriptors", encoding="utf-8") as file:
        seen = file.read()
    expect(("memfd:asancol-report" in seen, "socket:" in seen), (True, False), seen)
    for form, wanted in (("gcc", ""), ("github", ""), ("asan", "1")):
        ran = suite.run(f"--format={form}", "--", "sh", "-c", f"echo \"<$ASANCOL_LIVE>\"; {program} past",
                        ASANCOL_REPORT=REPORT)
        expect((ran.status, ran.out.splitlines()[0]), (99, f"<{wanted}>"), form)


def tests(suite: Suite) -> None:
    suite.test("live, order", check_order)
    suite.test("live, not printed", check_not_printed)
    suite.test("live, ways", check_ways)
    suite.test("live, same block", check_same_block)
    suite.test("live, many", check_many)
    suite.test("live, as AddressSanitizer", check_as_asan)
    suite.test("live, own files", check_own_files)
    suite.test("live, children", check_children)
    suite.test("live, at the end", check_at_the_end)
    suite.test("live, reader is gone", check_reader_is_gone)
    suite.test("live, bound", check_bound)
