"""Tests of ASANCOL_HALT, by itself and under libFuzzer and AFL++."""

import glob
import os
import re
import shutil
from typing import Dict, List, Tuple

from support import CC, TESTS, Compiler, Suite, build, expect, leave_out, limited, reports, run, write

# What ends the process, and the class of its one report.
FAULTS = {
    "heap": "heap-buffer-overflow",
    "freed": "heap-use-after-free",
    "freed_long_ago": "heap-use-after-free",
    "twice": "double-free",
    "inside": "bad-free",
    "reallocated": "double-free",
    "stack": "stack-buffer-overflow",
    "global": "global-buffer-overflow",
    "by_function": "heap-buffer-overflow",
    "poisoned": "use-after-poison",
    "cancelled": "heap-buffer-overflow",
}

ABORTED = -6


def traces(folder: str) -> List[str]:
    return sorted(glob.glob(f"{folder}/*.trace"))


def check_fault(suite: Suite, folder: str, program: str, name: str, wrong: str) -> None:
    """Each way to halt, recorded and not: the process aborts at its fault, and the trace has that fault alone."""
    for halt in ("1", "2"):
        for recorded in (True, False):
            settings = {"ASANCOL_TRACE": "%p.trace"} if recorded else {}
            ran = run([program, name], folder, ASANCOL_HALT=halt, **settings)
            expect((ran.returncode, ran.stderr.count(b"==ERROR: AddressSanitizer: ")), (ABORTED, 1), ran.stderr)
            expect(len(traces(folder)), int(recorded), "traces")
            for path in traces(folder):
                status, texts, end = reports(suite.asancol, path)
                expect((status, [it.split()[-1] for it in texts], end.split()[0]), (1, [wrong], "closed"), halt)
                os.unlink(path)


def check_nothing(suite: Suite, folder: str, program: str) -> None:
    """A process without a fault is not touched; with 2 it leaves no trace."""
    for halt, count in (("0", 1), ("1", 1), ("2", 0)):
        ran = run([program, "nothing"], folder, ASANCOL_HALT=halt, ASANCOL_TRACE="%p.trace")
        expect((ran.returncode, ran.stderr, len(traces(folder))), (0, b"", count), halt)
        for path in traces(folder):
            expect(reports(suite.asancol, path)[0], 0, halt)
            os.unlink(path)


def check_child(suite: Suite, folder: str, program: str) -> None:
    for halt, count in (("1", 2), ("2", 1)):
        ran = run([program, "child"], folder, ASANCOL_HALT=halt, ASANCOL_TRACE="%p.trace")
        expect((ran.returncode, len(traces(folder))), (7, count), ran.stderr)
        seen = sorted(reports(suite.asancol, path)[0] for path in traces(folder))
        expect(seen, [0, 1][2 - count :], "statuses")
        for path in traces(folder):
            os.unlink(path)


def check_callbacks(suite: Suite, folder: str, program: str) -> None:
    for name in ("with_callback", "with_old_callback"):
        ran = run([program, name], folder, ASANCOL_HALT="1")
        expect((ran.returncode, ran.stdout), (ABORTED, b"the callback\n"), name)
        expect(run([program, name], folder).returncode, 0, "without ASANCOL_HALT")


def check_vfork(suite: Suite, folder: str, program: str) -> None:
    """The child's end does not use up its parent's."""
    for halt in ("1", "2"):
        ran = run([program, "of_vfork"], folder, ASANCOL_HALT=halt, ASANCOL_TRACE="%p.trace")
        expect((ran.returncode, len(traces(folder))), (ABORTED, 1), ran.stderr)
        expect(reports(suite.asancol, traces(folder)[0])[0], 1, halt)
        os.unlink(traces(folder)[0])


def check_threads(suite: Suite, folder: str, program: str, name: str) -> None:
    """Many threads at fault at once: the process ends once, and its trace has the fault of one of them at least."""
    for halt in ("1", "2"):
        for _ in range(20):
            ran = run([program, name], folder, ASANCOL_HALT=halt, ASANCOL_TRACE="%p.trace")
            expect((ran.returncode, ran.stderr.count(b"==ERROR: AddressSanitizer: ")), (ABORTED, 1), ran.stderr)
            status, texts, end = reports(suite.asancol, traces(folder)[0])
            expect((status, end.split()[0], 1 <= len(texts) <= 8), (1, "closed", True), texts)
            os.unlink(traces(folder)[0])


def check_limit(suite: Suite, folder: str, program: str) -> None:
    """A fault past the event limit ends the process too. The trace does not have it, and does not read as clean."""
    ran = run([program, "after_many"], folder, ASANCOL_HALT="1", ASANCOL_TRACE="t.trace", **limited(100))
    expect(ran.returncode, ABORTED, ran.stderr)
    expect(reports(suite.asancol, f"{folder}/t.trace", ["--limit", "100"])[0], 3, "status")
    os.unlink(f"{folder}/t.trace")
    ran = run([program, "after_many"], folder, ASANCOL_HALT="2", ASANCOL_TRACE="t.trace")
    expect(reports(suite.asancol, f"{folder}/t.trace")[:2], (1, ["store 1 +8 heap-buffer-overflow"]), "with 2")


# A bug that does not crash: the program reads one byte past a block, in the slack of its allocator.
TARGET = """
#include <stdint.h>
#include <stdlib.h>
#include <string.h>
static volatile char sink;
int LLVMFuzzerTestOneInput(const uint8_t *data, size_t size) {
    char *text = (char *)malloc(size + 1);
    if (!text || (size && !memcpy(text, data, size))) return 0;
    text[size] = 0;
    if (size > 3 && text[0] == 'B' && text[1] == 'U' && text[2] == 'G') sink = text[size + 1];
    free(text);
    return 0; }
"""

MAIN = """
#include <stdint.h>
#include <stdio.h>
int LLVMFuzzerTestOneInput(const uint8_t *data, size_t size);
int main(void) { static uint8_t data[4096]; size_t size = fread(data, 1, sizeof data, stdin);
    return LLVMFuzzerTestOneInput(data, size); }
"""


def check_libfuzzer(suite: Suite, folder: str, compiler: Compiler, is_cpp: bool) -> None:
    """It finds the bug, writes the input, and leaves one trace, which asancol judges. Without ASANCOL_HALT it finds
    the bug, too; with 0 it finds nothing."""
    name = "target.cpp" if is_cpp else "target.c"
    with open(f"{folder}/{name}", "w", encoding="utf-8") as file:
        file.write(TARGET if not is_cpp else TARGET.replace("int LLVM", 'extern "C" int LLVM'))
    make = compiler.cpp if is_cpp else compiler.c
    make(folder, [name], f"{folder}/target", "-O2", "-g", "-fsanitize=fuzzer")
    argv = ["./target", "-seed=1", "-runs=2000000", "-max_len=64"]
    ran = run(argv, folder, ASANCOL_HALT="2", ASANCOL_TRACE="%p.trace")
    expect((ran.returncode, len(glob.glob(f"{folder}/crash-*")), len(traces(folder))), (77, 1, 1), ran.stderr[-2000:])
    status, texts, end = reports(suite.asancol, traces(folder)[0])
    expect((status, len(texts), end.split()[0]), (1, 1, "closed"), texts)
    with open(glob.glob(f"{folder}/crash-*")[0], "rb") as file:
        expect(file.read(3), b"BUG", "the input")
    os.mkdir(f"{folder}/in")
    write(f"{folder}/in", seed="BUGS")
    ran = run(["./target", "-runs=0", "in"], folder)
    expect((ran.returncode, ran.stderr.count(b"ERROR: AddressSanitizer: heap-buffer-overflow ")), (77, 1), ran.stderr)
    worded = run(["./target", "-runs=0", "in"], folder, ASANCOL_RUN="", ASANCOL=suite.asancol).stderr.decode()
    expect(worded.count("ERROR: AddressSanitizer: heap-buffer-overflow "), 1, worded)
    first = worded.partition("ERROR: libFuzzer")[0]
    expect(re.search(rf" in LLVMFuzzerTestOneInput /\S+/{re.escape(name)}:10", first) is not None, True, worded)
    expect("asancol: 1 report" in worded, False, worded)
    quiet = run(["./target", "-runs=0", "in"], folder, ASANCOL_HALT="0")
    expect(quiet.returncode, 0, "with ASANCOL_HALT=0")


# Not recorded, and recorded.
RECORDED: Tuple[Dict[str, str], ...] = ({}, {"ASANCOL_TRACE": "%p.trace"})

# It fails an assertion, or makes a bad access.
FAILING = """
#include <assert.h>
#include <stddef.h>
#include <stdint.h>
static char block[4];
int LLVMFuzzerTestOneInput(const uint8_t *data, size_t size) {
    assert(size < 2 || data[0] != 'F' || data[1] != 'A');
    if (size > 1 && data[0] == 'F' && data[1] == 'B') *(volatile char *)(block + 4) = 1;
    return 0; }
"""


def check_failing(suite: Suite, folder: str, compiler: Compiler) -> None:
    """An input that fails is written however the process ends, recorded or not, as with AddressSanitizer."""
    write(folder, target_c=FAILING)
    compiler.c(folder, ["target.c"], f"{folder}/target", "-O1", "-fsanitize=fuzzer,address")
    for text in ("FA", "FB"):
        for settings in RECORDED:
            for halt in ("1", "2"):
                os.mkdir(f"{folder}/in")
                write(f"{folder}/in", seed=text)
                ran = run(["./target", "-runs=100", "in"], folder, ASANCOL_HALT=halt, **settings)
                found = glob.glob(f"{folder}/crash-*")
                expect((ran.returncode, len(found)), (77, 1), f"{text} {halt} {settings} {ran.stderr[-500:]!r}")
                for path in (*found, *traces(folder)):
                    os.unlink(path)
                shutil.rmtree(f"{folder}/in")


# It sets a handler only if there is none, as libFuzzer does.
ASKING = """
#include <signal.h>
#include <stdlib.h>
#include <unistd.h>
static void ends(int number) { _exit(number == SIGABRT ? 3 : 4); }
int main(void) {
    struct sigaction old, own = {.sa_handler = ends};
    if (sigaction(SIGABRT, NULL, &old) != 0 || old.sa_handler != SIG_DFL) return 5;
    if (signal(SIGTERM, SIG_IGN) != SIG_DFL || sigaction(SIGABRT, &own, NULL) != 0) return 6;
    abort(); }
"""


def check_asking(suite: Suite, folder: str, compiler: Compiler) -> None:
    """Beside a runtime of the compiler's, which has a sigaction of its own, a program does not meet our handlers."""
    write(folder, main_c=ASKING)
    for flags in ((), ["-fsanitize=undefined"], ["-fsanitize=undefined,address"]):
        compiler.c(folder, ["main.c"], f"{folder}/program", *flags)
        for settings in RECORDED:
            expect(run(["./program"], folder, **settings).returncode, 3, f"{flags} {settings}")


def check_afl(suite: Suite, folder: str, compiler: Compiler) -> None:
    """AFL++ finds it too, and only the inputs that fail leave a trace."""
    write(folder, target_c=TARGET, main_c=MAIN)
    settings = {"AFL_QUIET": "1", "ASANCOL_CC": "afl-clang-fast"}
    build([CC, "-g", "-O2", "target.c", "main.c", "-o", "target"], folder, **settings)
    os.mkdir(f"{folder}/in")
    with open(f"{folder}/in/seed", "w", encoding="utf-8") as file:
        file.write("BUFFER of some length")
    options = {
        "AFL_NO_UI": "1",
        "AFL_SKIP_CPUFREQ": "1",
        "AFL_I_DONT_CARE_ABOUT_MISSING_CRASHES": "1",
        "AFL_BENCH_UNTIL_CRASH": "1",
        "AFL_NO_AFFINITY": "1",
    }
    argv = ["afl-fuzz", "-V", "120", "-s", "1", "-i", "in", "-o", "out", "--", "./target"]
    ran = run(argv, folder, ASANCOL_HALT="2", ASANCOL_TRACE=f"{folder}/%p.trace", **options)
    crashes = glob.glob(f"{folder}/out/default/crashes/id*")
    expect((len(crashes) >= 1, len(traces(folder)) >= 1), (True, True), ran.stdout[-2000:])
    expect(reports(suite.asancol, traces(folder)[0])[0], 1, "the verdict")


def has_libfuzzer(compiler: Compiler, folder: str) -> bool:
    write(folder, fuzz_c=TARGET)
    return run([compiler.name, "-fsanitize=fuzzer", "fuzz.c", "-o", "fuzz"], folder).returncode == 0


def tests(suite: Suite, compiler: Compiler) -> None:
    for level, flags in (("-O0", ()), ("-O2", ()), ("-O1", ["-static"])):
        argv = [level, "-w", "-pthread", *flags]
        program = suite.built(compiler.c, [f"{TESTS}/halts.c"], f"halts-{compiler}{level}", *argv)
        for name, wrong in FAULTS.items():
            if not flags or name != "by_function":  # in a static program no function is wrapped
                suite.test(f"{compiler} halt {level} {name}", check_fault, program, name, wrong)
    program = suite.programs[f"{suite.folder}/halts-{compiler}-O0"]
    for name, check in (
        ("nothing", check_nothing),
        ("child", check_child),
        ("callbacks", check_callbacks),
        ("vfork", check_vfork),
        ("limit", check_limit),
    ):
        suite.test(f"{compiler} halt {name}", check, program)
    for name in ("threads", "threads_that_exit"):
        suite.test(f"{compiler} halt {name}", check_threads, program, name)
    suite.test(f"{compiler} asks for handlers", check_asking, compiler)
    if compiler.name != "clang":
        return
    if has_libfuzzer(compiler, suite.folder):
        suite.test(f"{compiler} libFuzzer", check_libfuzzer, compiler, False)
        suite.test(f"{compiler} libFuzzer failing", check_failing, compiler)
        if compiler.cxx:
            suite.test(f"{compiler} libFuzzer c++", check_libfuzzer, compiler, True)
    else:
        leave_out("libFuzzer is not there")
    if shutil.which("afl-clang-fast") and shutil.which("afl-fuzz"):
        suite.test(f"{compiler} AFL++", check_afl, compiler)
    else:
        leave_out("AFL++ is not there")
