"""A project with AddressSanitizer jobs of its own, which changes the compiler alone: with the same options the same
tests fail as with AddressSanitizer, and its logs have the same classes.

The project is in the folder `switched`. Each job is a script for sh, which is run twice: with AddressSanitizer's
compilers, and with asancol's alone.
"""

import glob
import json
import os
import re
import shutil
import xml.etree.ElementTree
from typing import Callable, Dict, List, NamedTuple, Tuple

from testing import TOP, LeftOut, Suite, expect
from testing.programs import run

PROJECT = f"{TOP}/tests/switched"

# What a job says: of each test whether it passed, or of a fuzzer what it found.
Said = Dict[str, str]

TESTS: Said = {"fine": "passed", "overflow": "failed", "freed": "failed", "leak": "failed", "known_leak": "passed"}
FUZZED: Said = {"input": "BUG"}

# As a job has them. Logs are files, one for each process with a report.
OPTIONS = {
    "ASAN_OPTIONS": "detect_leaks=1:halt_on_error=1:log_path=logs/asan",
    "LSAN_OPTIONS": "suppressions=leaks.supp:print_suppressions=0",
}
LOGGED = ("heap-buffer-overflow", "heap-use-after-free", "detected memory leaks")


class Job(NamedTuple):
    name: str
    script: str
    said: Callable[[str], Said]  # from the folder
    wanted: Said
    tools: Tuple[str, ...]
    real: Dict[str, str]  # the compilers with AddressSanitizer
    changed: Dict[str, str]  # the settings that differ afterwards
    has_logs: bool = True


# What each job leaves.

def of_ctest(folder: str) -> Said:
    cases = xml.etree.ElementTree.parse(f"{folder}/build/ctest.xml").iter("testcase")
    return {it.attrib["name"]: "passed" if it.find("failure") is None else "failed" for it in cases}


def of_meson(folder: str) -> Said:
    with open(f"{folder}/build/meson-logs/testlog.json", encoding="utf-8") as file:
        entries = [json.loads(line) for line in file]
    return {it["name"]: "passed" if it["result"] == "OK" else "failed" for it in entries}


def of_make(folder: str) -> Said:
    with open(f"{folder}/tests.txt", encoding="utf-8") as file:
        return dict(re.findall(r"(?m)^(\w+) (passed|failed)$", file.read()))


def of_cargo(folder: str) -> Said:
    """Each file of tests is a process, of which the first with a report ends."""
    with open(f"{folder}/tests.txt", encoding="utf-8") as file:
        text = file.read()
    passed = re.findall(r"test (\w+) \.\.\. ok", text)
    return {"within": "passed" if "within" in passed else "failed", **of_make(folder)}


def of_fuzzer(folder: str) -> Said:
    found = glob.glob(f"{folder}/crash-*") + glob.glob(f"{folder}/out/default/crashes/id*")
    begins = set()
    for path in found:
        with open(path, "rb") as file:
            begins.add(file.read(3).decode("latin-1"))
    return {"input": ",".join(sorted(begins))}


CMAKE = "cmake -B build -DENABLE_ASAN=ON && cmake --build build && mkdir -p build/logs && cp leaks.supp build && " \
        "ctest --test-dir build --output-junit ctest.xml"
MESON = "meson setup build -Db_sanitize=address,undefined && mkdir -p build/logs && cp leaks.supp build && " \
        "meson test -C build"
MAKE = "mkdir -p logs && make && make check > tests.txt"
CARGO = "cd rust && for it in fine overflow; do " \
        "if $CARGO test --offline --target x86_64-unknown-linux-gnu --test $it; then echo $it passed; " \
        "else echo $it failed; fi; done > ../tests.txt"
LIBFUZZER = "make fuzz && ./fuzz -seed=1 -runs=2000000 -max_len=16"
AFL = "make fuzz && mkdir in && echo BUFFER > in/seed && " \
      "afl-fuzz -V 120 -s 1 -i in -o out -- ./fuzz"
AFL_OPTIONS = {it: "1" for it in ("AFL_NO_UI", "AFL_QUIET", "AFL_SKIP_CPUFREQ", "AFL_BENCH_UNTIL_CRASH",
                                  "AFL_NO_AFFINITY", "AFL_I_DONT_CARE_ABOUT_MISSING_CRASHES", "AFL_USE_ASAN")}

GCC, CLANG = {"CC": "gcc", "CXX": "g++"}, {"CC": "clang", "CXX": "clang++"}
OURS = {"CC": "asancol-cc", "CXX": "asancol-c++", "ASANCOL_RUN": ""}
OUR_CLANG = {"CC": "asancol-clang", "CXX": "asancol-clang++", "ASANCOL_RUN": ""}

JOBS = [
    Job("cmake", CMAKE, of_ctest, {**TESTS, "script": "failed", "death": "passed"}, ("cmake", "ctest"), GCC, OURS),
    Job("cmake, Clang", CMAKE, of_ctest, {**TESTS, "script": "failed", "death": "passed"},
        ("cmake", "ctest", "clang"), CLANG, OUR_CLANG),
    Job("meson", MESON, of_meson, TESTS, ("meson", "ninja"), GCC, OURS),
    Job("make", MAKE, of_make, TESTS, ("make",), GCC, OURS),
    Job("cargo", CARGO, of_cargo, {"within": "passed", "fine": "passed", "overflow": "failed"}, ("cargo",),
        {"CARGO": "cargo +nightly", "RUSTFLAGS": "-Zsanitizer=address"},
        {"CARGO": "asancol-cargo", "RUSTFLAGS": "-Zsanitizer=address", "ASANCOL_RUN": ""}, False),
    Job("libFuzzer", LIBFUZZER, of_fuzzer, FUZZED, ("make", "clang"), CLANG, OUR_CLANG, False),
    Job("AFL++", AFL, of_fuzzer, FUZZED, ("make", "afl-clang-fast", "afl-fuzz"),
        {"CC": "afl-clang-fast", **AFL_OPTIONS},
        {"CC": "asancol-cc", "ASANCOL_CC": "afl-clang-fast", **AFL_OPTIONS}, False),
]


def why_not(job: Job) -> str:
    """Why a job can't run here, or nothing."""
    missing = [it for it in job.tools if not shutil.which(it)]
    if missing:
        return f"{missing[0]} is not there"
    if "death" in job.wanted and not os.path.exists("/usr/include/gtest/gtest.h"):
        return "googletest is not there"
    return ""


def classes_in(logs: List[str]) -> List[str]:
    """The first line of each log, without its numbers."""
    found = []
    for path in logs:
        with open(path, encoding="utf-8") as file:
            found += re.findall(r"ERROR: \w+Sanitizer: (detected memory leaks|[\w-]+)", file.read())
    return sorted(found)


def say(job: Job, folder: str, compilers: Dict[str, str], settings: Dict[str, str]) -> Tuple[Said, List[str], str]:
    """The findings of a job in a copy of the project, with those in its logs; and its output."""
    shutil.copytree(PROJECT, folder)
    options = OPTIONS if job.has_logs else {}
    ran = run(["sh", "-c", job.script], folder, **settings, **options, **compilers)
    printed = f"{ran.stdout.decode(errors='replace')[-3000:]}\n{ran.stderr.decode(errors='replace')[-3000:]}"
    try:
        return job.said(folder), classes_in(glob.glob(f"{folder}/**/logs/asan.*", recursive=True)), printed
    except OSError as error:
        return {"error": str(error)}, [], printed


def check_job(suite: Suite, folder: str, job: Job, settings: Dict[str, str]) -> None:
    """The same tests fail as with AddressSanitizer, if that is here, and its logs are the same."""
    why = why_not(job)
    if why:
        raise LeftOut(why)
    said, logs, printed = say(job, f"{folder}/changed", job.changed, settings)
    expect(said, job.wanted, f"{job.name}: {printed}\ntests")
    real, real_logs, _ = say(job, f"{folder}/real", job.real, settings)
    if real != job.wanted:
        print(f"{job.name}: AddressSanitizer itself says {real}", flush=True)
    elif job.has_logs:
        expect(logs, real_logs, "logs")
        expect(sorted(set(logs)), sorted(LOGGED), "classes")


def add_tests(suite: Suite, settings: Dict[str, str]) -> None:
    for job in JOBS:
        suite.test(f"switching: {job.name}", check_job, job, settings)
