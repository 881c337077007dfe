"""Programs of a project that asancol-cc did not build, and that ran under asancol-run all the same, are named."""

import json
import os
import re
import shutil
import subprocess
import sys
from typing import Dict, List, Tuple

from support import CC, REPORT, RUN, TOP, Suite, expect, expect_in, expect_not_in, expect_ran, leave_out, write_text
from testing.programs import NO_SETTINGS, call

MARKER = "libasancol_before_libasan.so"
RECORDER = os.path.realpath(f"{TOP}/recorder")
PRELOADED = f"{RECORDER}/for-$PLATFORM/{MARKER}"
GOOD = "int main(void) { return 0; }\n"
NAMES = ("one", "two", "three", "four")
ONE = "not checked: 1 program: {} (not built with asancol-cc)\n"
# A 32-bit program, without the files that a linker has for those.
SMALL = """
int puts(const char *);
void exit(int);
void start(void) { exit(puts("32 bits") < 0); }
"""
LIBRARY_32, LOADER_32 = "/lib32/libc.so.6", "/lib/ld-linux.so.2"


def build(folder: str, compiler: str = "gcc") -> None:
    """Builds four tests by asancol-cc, and one by the compiler alone, as ./tests/plain."""
    environment = {**os.environ, "ASANCOL_CC": compiler}
    os.mkdir(f"{folder}/tests")
    write_text(f"{folder}/good.c", GOOD)
    call([CC, "-g", "good.c", "-o", "tests/one"], cwd=folder, env=environment, check=True)
    for name in NAMES[1:]:
        shutil.copy(f"{folder}/tests/one", f"{folder}/tests/{name}")
    call([compiler, "good.c", "-o", "tests/plain"], cwd=folder, check=True)


def ways(folder: str) -> Dict[str, List[str]]:
    """Ways to run all five tests."""
    each = [*NAMES, "plain"]
    write_text(f"{folder}/Makefile", "check:\n" + "".join(f"\t./tests/{it}\n" for it in each))
    write_text(f"{folder}/driver.py", "import subprocess\n" + "".join(
        f'subprocess.run(["{folder}/tests/{it}"], check=True)\n' for it in each))
    found = {
        "sh": ["sh", "-ec", "cd tests; for it in *; do ./$it; done"],
        "make": ["make", "-s", "check"],
        "PATH": ["env", f"PATH={folder}/tests:{os.environ['PATH']}", "sh", "-ec", "; ".join(each)],
        "python": [sys.executable, "driver.py"],
    }
    if shutil.which("ctest") and shutil.which("cmake"):
        write_text(f"{folder}/CTestTestfile.cmake", "".join(f'add_test({it} "./tests/{it}")\n' for it in each))
        found["ctest"] = ["ctest"]
    else:
        leave_out("unrecorded: ctest is not there")
    return found


def check_ways(suite: Suite, folder: str, compiler: str) -> None:
    build(folder, compiler)
    for name, argv in ways(folder).items():
        ran = suite.run("--", *argv, cwd=folder)
        expect_ran(ran, 0, "asancol: no reports; 4 processes, ", f" events; {ONE.format('tests/plain')}",
                   absent=["all complete", "ld.so"])
        expect((name, ran.err.count("not checked")), (name, 1), ran.err)


def check_options(suite: Suite, folder: str) -> None:
    """Below the current folder, or that of a program of asancol-cc; or anywhere; and never those of the system."""
    build(folder)
    os.mkdir(f"{folder}/other")
    shutil.copy(f"{folder}/tests/plain", f"{folder}/other/tool")
    both = ["sh", "-ec", f"{folder}/tests/one; {folder}/tests/plain; {folder}/other/tool; ls / > /dev/null"]
    here, there = ONE.format("tests/plain"), ONE.format(f"{folder}/tests/plain")
    two = f"not checked: 2 programs: {folder}/other/tool, {folder}/tests/plain (not built with asancol-cc)\n"
    cases: List[Tuple[List[str], str, int, str]] = [
        ([], "/", 0, there),
        (["-q"], "/", 0, there),
        (["--unchecked=error"], "/", 98, there),
        (["--unchecked=list-all"], "/", 0, two),
        (["--unchecked=no"], "/", 0, " events; all complete\n"),
        (["-v", "--unchecked=list-all"], "/", 0, "asancol: program not built with asancol-cc, not checked: "
         f"{folder}/other/tool\n"),
        ([], folder, 0, "2 programs: other/tool, tests/plain (not built"),
        ([], f"{folder}/other", 0, f"2 programs: {folder}/tests/plain, tool (not built"),
    ]
    for words, where, status, text in cases:
        for reporter in (NO_SETTINGS, {"ASANCOL_REPORT": REPORT}):
            expect_ran(suite.run(*words, *both, cwd=where, **reporter), status, text)
    expect_ran(suite.run("sh", "-c", "tests/one; tests/plain", cwd=folder, ASANCOL_REPORT=REPORT), 0, here)
    ran = suite.run("--json=x", "sh", "-c", "ls > /dev/null", cwd=folder, ASANCOL_REPORT=REPORT)
    expect_ran(ran, 98, "NOTHING WAS RECORDED", absent=["not checked"])
    expect_ran(suite.run("tests/plain", cwd=folder), 98, "NOTHING WAS RECORDED", ONE.format("tests/plain"))


def check_reasons(suite: Suite, folder: str) -> None:
    """The kinds of programs that are taken for recorded ones: for AddressSanitizer, and static ones."""
    write_text(f"{folder}/main.c", "int main(void) { return 0; }\n")
    for name, flag in (("sanitized", "-fsanitize=address"), ("static", "-static")):
        call(["gcc", flag, "main.c", "-o", name], cwd=folder, check=True)
    ran = suite.run("./sanitized", cwd=folder)
    expect_ran(ran, 98, "NOTHING WAS RECORDED: sanitized was built for AddressSanitizer: build it with asancol-cc\n")
    for command in ("./static", f"{folder}/static"):
        expect_ran(suite.run(command, cwd=folder), 98,
                   f"NOTHING WAS RECORDED: {command} is a static program that was not built with asancol-cc\n")


def check_outputs(suite: Suite, folder: str) -> None:
    """JSON lines, merged results, SARIF, the page, and a run inside another one."""
    build(folder)
    for number in range(6):
        shutil.copy(f"{folder}/tests/plain", f"{folder}/tests/p{number}")
    outputs = [f"--{kind}={kind}" for kind in ("json", "sarif", "html")]
    line = "tests/one; for it in tests/p*; do $it; done"
    ran = suite.run(*outputs, "sh", "-c", line, cwd=folder, ASANCOL_REPORT=REPORT)
    names = [f"tests/p{it}" for it in range(6)] + ["tests/plain"]
    text = f"not checked: 7 programs: {', '.join(names[:5])} and 2 more (not built with asancol-cc)\n"
    expect_ran(ran, 0, text)
    with open(f"{folder}/json", encoding="utf-8") as file:
        entry = json.loads(file.readline())
    expect((entry["unrecorded"], entry["unrecorded_more"], "unchecked" in entry), (names, 0, False), "JSON lines")
    for kind in ("sarif", "html"):
        with open(f"{folder}/{kind}", encoding="utf-8") as file:
            expect_in(file.read(), f"{', '.join(names)} (not built with asancol-cc)")
    suite.run("--json=other", "sh", "-c", "tests/two; tests/p0; cp tests/p0 more; ./more", cwd=folder,
              ASANCOL_REPORT=REPORT)
    for words, status, said in (
        (["json"], 0, text), (["json", "other", "--json=both"], 0, "8 programs: more, tests/p0, "),
        (["both"], 0, "8 programs: more, tests/p0, "), (["both", "--unchecked=error"], 3, "8 programs: more, "),
        (["both", "--unchecked=no"], 0, " events\n"), (["both", "--unchecked=list-all", "-q"], 0, "8 programs: "),
    ):
        ran = suite.run_argv([REPORT, *words], cwd=folder)
        expect((ran.status, said in ran.out), (status, True), (words, ran.out, ran.err))
    inside = f"tests/one; {RUN} -- sh -c 'tests/two; tests/plain'"
    ran = suite.run("sh", "-c", inside, cwd=folder, ASANCOL_REPORT=REPORT)
    expect_ran(ran, 0, "2 processes in 2 runs, ")
    expect(ran.err.count(ONE.format("tests/plain")), 2, ran.err)


def check_kinds(suite: Suite, folder: str) -> None:
    """Short ones, scripts, interpreters of the project, static ones, ones without /proc/self/exe's file."""
    build(folder)
    for path, first in (("script", "/bin/sh"), ("by-env", "/usr/bin/env python3"), ("by-own", f"{folder}/tests/plain")):
        write_text(f"{folder}/{path}", f"#!{first}\n")
        os.chmod(f"{folder}/{path}", 0o755)
    call(["gcc", "-static", "good.c", "-o", "static"], cwd=folder, check=True)
    own = ONE.format("tests/plain")
    for line, text in (
        ("for it in $(seq 300); do tests/plain; done", own),
        ("./script; ./by-env", " events; all complete\n"),
        ("./by-own", own),
        ("./static", " events; all complete\n"),
        ("env -i tests/plain", " events; all complete\n"),
        ("tests/plain & wait; exec tests/plain", own),
        ("cp tests/plain gone; (./gone; rm gone); exec tests/one", ONE.format("gone")),
        ("/lib64/ld-linux-x86-64.so.2 tests/plain; /lib64/ld-linux-x86-64.so.2 tests/one", " events; all complete\n"),
    ):
        expect_ran(suite.run("sh", "-c", f"tests/one; {line}", cwd=folder), 0, text)


def check_sanitized(suite: Suite, folder: str) -> None:
    """AddressSanitizer's runtime accepts what comes before it, and finds what it finds."""
    build(folder)
    write_text(f"{folder}/bad.c", "#include <stdlib.h>\nint main(void) { return *((char *)malloc(8) + 8); }\n")
    for name in ("good", "bad"):
        call(["gcc", "-fsanitize=address", f"{name}.c", "-o", name], cwd=folder, check=True)
    ran = suite.run("sh", "-c", "tests/one; ./good && ! ./bad", cwd=folder, ASAN_OPTIONS="")
    expect_ran(ran, 0, "ERROR: AddressSanitizer: heap-buffer-overflow", "2 programs: bad, good (not built with",
               absent=["does not come first"])


def check_small(suite: Suite, folder: str) -> None:
    """A 32-bit program is named, and its loader has nothing to say."""
    build(folder)
    write_text(f"{folder}/small.c", SMALL)
    argv = ["gcc", "-m32", "-no-pie", "-fno-pic", "-mstackrealign", "-nostdlib", "-Wl,-e,start", "small.c", LIBRARY_32,
            f"-Wl,-dynamic-linker,{LOADER_32}", "-o", "small"]
    call(argv, cwd=folder, check=True)
    ran = suite.run("sh", "-ec", "tests/one; ./small", cwd=folder)
    expect_ran(ran, 0, ONE.format("small"), absent=["ld.so"])
    expect(ran.out, "32 bits\n")


def check_environment(suite: Suite, folder: str) -> None:
    """It comes last, once, and only if it is of use; a program that begins its own run has nothing of it."""
    say = ["sh", "-c", "echo $LD_PRELOAD"]
    other = "/lib/x86_64-linux-gnu/libm.so.6"
    cases: List[Tuple[List[str], str, str]] = [
        ([], "", PRELOADED), ([], other, f"{other}:{PRELOADED}"), (["--unchecked=no"], "", ""),
        (["--unchecked=no"], other, other), (["--unchecked=error", RUN], "", PRELOADED),
        (["--preload"], other, f"{RECORDER}/libasancol_preload.so:{other}:{PRELOADED}"),
    ]
    for words, before, value in cases:
        ran = suite.run(*words, *say, LD_PRELOAD=before)
        expect(ran.out, f"{value}\n", (words, before))
    write_text(f"{folder}/say.c", '#include <stdio.h>\n#include <stdlib.h>\n'
               'int main(void) { printf("%d", getenv("LD_PRELOAD") != NULL); }\n')
    call([CC, "say.c", "-o", "say"], cwd=folder, check=True)
    expect(suite.run_argv(["./say"], cwd=folder, ASANCOL_RUN=RUN).out, "0", "by its own run")


def check_places(suite: Suite, folder: str) -> None:
    """Where it can't be preloaded, a line says so, and all else is as usual."""
    def copied(name: str, has_marker: bool) -> str:
        os.makedirs(f"{folder}/{name}/bin")
        if has_marker:
            os.makedirs(f"{folder}/{name}/lib/asancol/for-x86_64")
            shutil.copy(f"{RECORDER}/for-x86_64/{MARKER}", f"{folder}/{name}/lib/asancol/for-x86_64")
        return shutil.copy(RUN, f"{folder}/{name}/bin/asancol-run")

    build(folder)
    for name, has_marker, text in (("alone", False, f"for-x86_64/{MARKER} is missing"), ("a folder", True, "a blank")):
        run = copied(name, has_marker)
        ran = suite.run_argv([run, "sh", "-c", "tests/one; tests/plain; echo $LD_PRELOAD"], cwd=folder)
        expect_ran(ran, 0, " events; all complete\n", "programs that asancol-cc did not build go unnoticed: ", text)
        expect(ran.out, "\n", name)
        ran = suite.run_argv([run, "--unchecked=no", "tests/one"], cwd=folder)
        expect_ran(ran, 0, absent=["unnoticed"])


def check_object(_suite: Suite, _folder: str) -> None:
    """It needs no library, has no symbol, and no relocation; and it is small."""
    for platform in ("x86_64", "haswell", "xeon_phi", "i386", "i486", "i586", "i686"):
        path = f"{RECORDER}/for-{platform}/{MARKER}"
        seen = call(["readelf", "-W", "-d", "-r", "-l", "--dyn-syms", path], stdout=subprocess.PIPE, check=True)
        text = seen.stdout.decode()
        expect_in(text, "There are no relocations", "GNU_STACK", "(INIT)")
        expect_not_in(text, "NEEDED", " TLS ", " RWE ", " FUNC ", " OBJECT ")
        expect(re.findall(r"GNU_STACK.* (RW.?) ", text), ["RW "], text)
        expect(os.path.getsize(path) < 4096, True, platform)


def tests(suite: Suite) -> None:
    for compiler in ("gcc", "clang"):
        if shutil.which(compiler):
            suite.test(f"unrecorded: ways to run tests, {compiler}", check_ways, compiler)
    suite.test("unrecorded: options", check_options)
    suite.test("unrecorded: reasons", check_reasons)
    suite.test("unrecorded: outputs", check_outputs)
    suite.test("unrecorded: kinds of programs", check_kinds)
    suite.test("unrecorded: AddressSanitizer", check_sanitized)
    suite.test("unrecorded: environment", check_environment)
    suite.test("unrecorded: places", check_places)
    suite.test("unrecorded: the object", check_object)
    if os.path.exists(LIBRARY_32) and os.path.exists(LOADER_32):
        suite.test("unrecorded: 32 bits", check_small)
    else:
        leave_out("unrecorded: a C library for 32-bit programs is not there (on Debian, libc6-i386)")
