"""Uses of variables of functions that have returned: found in code compiled for it, as AddressSanitizer finds them,
and nothing else is said of frames that are left, threads, forks and coroutines."""

import os
import re
from typing import List, Optional, Tuple

from support import CC, TESTS, Compiler, Suite, build, by_sanitizer, expect, reports, run, write
from testing.programs import REPORT

OPTION = "-fsanitize-address-use-after-return="
ASKED = OPTION + "runtime"
RETURNED, OVERFLOW = "stack-use-after-return", "stack-buffer-overflow"

# The class of each case, the description of the bad byte, and whether AddressSanitizer says the same.
TEXT = ("byte 2 of 'buffer' (24 bytes) on the stack, declared in line N, whose function has returned, "
        "in frame of text(int)")
LEFT = ("byte 2 of 'buffer' (24 bytes) on the stack, declared in line N, whose function has returned, "
        "in frame of left(bool)")
CASES = {
    "text": (RETURNED, TEXT, True),
    "string": (RETURNED, TEXT.replace("byte 2", "byte 0"), True),
    "printed": (RETURNED, TEXT.replace("byte 2", "byte 0"), True),
    "single": (RETURNED, "byte 0 of 'value' (4 bytes) on the stack, declared in line N, whose function has returned, "
               "in frame of single()", True),
    "large": (RETURNED, "byte 100 of 'buffer' (9000 bytes) on the stack, declared in line N, whose function has "
              "returned, in frame of large()", True),
    "huge": ("", "", True),
    "past_its_end": (OVERFLOW, "0 bytes past the end of 'buffer' (24 bytes) on the stack, declared in line N, "
                     "in frame of past_its_end()", True),
    "after_a_jump": (RETURNED, LEFT, False),
    "after_a_throw": (RETURNED, LEFT, False),
    "of_a_thread": (RETURNED, TEXT, False),
    "in_a_child": (RETURNED, TEXT, True),
    "of_a_handler": (RETURNED, TEXT, True),
    "jumps": ("", "", True),
    "throws": ("", "", True),
    "handlers": ("", "", True),
    "left_handlers": (RETURNED, LEFT.replace("left(bool)", "as_large()"), False),
    "left_often": (RETURNED, LEFT.replace("left(bool)", "as_large()"), False),
    "threads": ("", "", True),
    "forks": ("", "", True),
    "short_threads": (RETURNED, TEXT, False),
    "used_up": (RETURNED, TEXT, True),
    "given_back": ("", "", False),
    "coroutines": ("", "", False),
    "inner_coroutine": ("", "", False),
    "coroutine_throws": (RETURNED, LEFT.replace("left(bool)", "as_large()"), False),
    "left_coroutines": (RETURNED, LEFT.replace("left(bool)", "as_large()"), False),
    "asked": ("", "", True),
}

TITLE = re.compile(r"ERROR: asancol: ([^:]*)")
WHERE = re.compile(r"  0x\w+ is (.*)")
SANITIZED = {"ASAN_OPTIONS": "detect_leaks=0:detect_stack_use_after_return=1"}


def said_by_report(suite: Suite, folder: str) -> Tuple[List[str], List[str]]:
    """Returns the classes that a report of all traces has, and what it says of each bad byte, without numbers of
    lines."""
    traces = sorted(it for it in os.listdir(folder) if it.endswith(".trace"))
    ran = run([REPORT, "--trace", *traces], folder, ASANCOL=suite.asancol)
    text = ran.stdout.decode() + ran.stderr.decode()
    places = [re.sub(r"line \d+", "line N", re.sub(r", [^ ]*:\d+$", "", it)) for it in WHERE.findall(text)]
    for name in traces:
        os.unlink(f"{folder}/{name}")
        os.unlink(f"{folder}/{name}.where")
    return TITLE.findall(text), places


def check_case(suite: Suite, folder: str, program: str, sanitized: Optional[str], name: str) -> None:
    wanted, where, is_same = CASES[name]
    ran = run([program, name], folder, ASANCOL_TRACE="%p.trace", ASANCOL_WHERE="1")
    printed = ran.stdout if name != "printed" else b""
    expect((ran.returncode, printed, ran.stderr), (0, b"", b""), "the program")
    expect(said_by_report(suite, folder), ([wanted] if wanted else [], [where] if where else []), "the report")
    if sanitized and is_same:
        said = by_sanitizer(run([sanitized, name], folder, **SANITIZED).stderr.decode())
        expect(said[0] if said else "", wanted, "AddressSanitizer")


BUG = """
char *volatile kept;
__attribute__((noinline)) void f(void) { char buffer[24]; buffer[2] = 1; kept = buffer; }
#ifndef FIRST
#define FIRST
#endif
int bug(void) { FIRST f(); return ((volatile char *)kept)[2] * 0; }
"""
MAIN = "int bug(void);\nint main(void) { return bug(); }\n"
FOUND = f"load 1 {OVERFLOW}"


def found(suite: Suite, folder: str, program: str = "./program", **settings: str) -> List[str]:
    ran = run([program], folder, ASANCOL_TRACE="t.trace", **settings)
    expect((ran.returncode, ran.stdout, ran.stderr), (0, b"", b""), "the program")
    texts = reports(suite.asancol, f"{folder}/t.trace")[1]
    os.unlink(f"{folder}/t.trace")
    return texts


def check_words(suite: Suite, folder: str, compiler: Compiler) -> None:
    """Both compilers' words with each, in all places of a command line; the last one holds, and without one nothing is
    found."""
    write(folder, bug_c=BUG, main_c=MAIN, a_rsp=f"-O1 '{ASKED}' \"-DNAME=a b\"\n", b_rsp="-Wall @a.rsp\n",
          c_rsp="-O1 --param asan-use-after-return=0 '-DFIRST=(void)\"a \\\\\\\\ \\\\\"b\";'\n")
    for argv, is_found in {
        (): False, (ASKED,): True, (OPTION + "always",): True, (OPTION + "never",): False,
        ("--param", "asan-use-after-return=1"): True, ("--param=asan-use-after-return=1",): True,
        ("--param", "asan-use-after-return=0"): False, (ASKED, "--param=asan-use-after-return=0"): False,
        ("--param", "asan-use-after-return=0", ASKED): True, (OPTION + "always", OPTION + "never"): False,
        ("@a.rsp",): True, ("@b.rsp",): True, ("@b.rsp", "@c.rsp"): False, ("@c.rsp", ASKED): True,
        (ASKED, "--asancol-all"): True, (ASKED, "-O2"): True, (ASKED, "-no-pie"): True, (ASKED, "-flto"): True,
    }.items():
        if "-flto" in argv and compiler.name == "clang":
            continue
        made = run([CC, "-g", *argv, "bug.c", "main.c", "-o", "program"], folder, ASANCOL_CC=compiler.name)
        expect((made.returncode, made.stderr), (0, b""), f"{argv}")
        texts = found(suite, folder)
        expect(FOUND in texts if "--asancol-all" in argv else texts == [FOUND], is_found, f"{argv}")
    build([CC, "-g", "bug.c", "main.c", "-o", "program"], folder, ASANCOL_CC=f"{compiler.name} {ASKED}")
    expect(found(suite, folder), [FOUND], "among the compiler's arguments")


def check_steps(suite: Suite, folder: str, compiler: Compiler) -> None:
    """In the flags of the link too, which compiles nothing; and of one file of two."""
    write(folder, bug_c=BUG, main_c=MAIN)
    flags: List[List[str]] = [[], ["-flto"]] if compiler.name == "gcc" else [[]]
    for more in flags:
        for argv in ((), [ASKED], ["--param", "asan-use-after-return=1"]):
            build([CC, "-O1", *more, ASKED, "-c", "bug.c"], folder, ASANCOL_CC=compiler.name)
            build([CC, "-O1", *more, "-c", "main.c"], folder, ASANCOL_CC=compiler.name)
            made = run([CC, *more, *argv, "bug.o", "main.o", "-o", "program"], folder, ASANCOL_CC=compiler.name)
            expect((made.returncode, made.stderr), (0, b""), f"{argv}")
            expect(found(suite, folder), [FOUND], f"{more} {argv}")


def check_wrong_words(suite: Suite, folder: str, compiler: Compiler) -> None:
    write(folder, bug_c=BUG, a_rsp=OPTION + "maybe\n")
    for argv, why in {
        (OPTION + "maybe",): f"{OPTION}maybe: it takes never, runtime or always",
        (OPTION,): f"{OPTION}: it takes never, runtime or always",
        ("-fsanitize=address", OPTION + "maybe"): f"{OPTION}maybe: it takes never, runtime or always",
        ("@a.rsp",): f"{OPTION}maybe: it takes never, runtime or always",
        ("--param", "asan-use-after-return=2"): "asan-use-after-return=2: it takes 0 or 1",
        ("--param=asan-use-after-return=yes",): "asan-use-after-return=yes: it takes 0 or 1",
    }.items():
        made = run([CC, *argv, "-c", "bug.c"], folder, ASANCOL_CC=compiler.name)
        expect((made.returncode, made.stderr.decode()), (1, f"asancol-cc: error: {why}\n"), f"{argv}")


def check_setting(suite: Suite, folder: str, compiler: Compiler) -> None:
    """It turns off what `runtime` has compiled, and not what Clang's `always` has."""
    write(folder, bug_c=BUG, main_c=MAIN)
    for mode in ("runtime", "always"):
        compiler.c(folder, ["bug.c", "main.c"], f"{folder}/program", OPTION + mode)
        stays = mode == "always" and compiler.name == "clang"
        expect(found(suite, folder), [FOUND], mode)
        expect(found(suite, folder, ASANCOL_USE_AFTER_RETURN="1"), [FOUND], f"{mode}, 1")
        expect(found(suite, folder, ASANCOL_USE_AFTER_RETURN="0"), [FOUND] if stays else [], f"{mode}, 0")
        expect(run(["./program"], folder, ASANCOL_HALT="1").returncode, -6, "to end at the first fault")
    ran = run(["./program"], folder, ASANCOL_TRACE="t.trace", ASANCOL_USE_AFTER_RETURN="2")
    expect(ran.stderr.decode(),
           "asancol: ignored: ASANCOL_USE_AFTER_RETURN: '2' is not a number (0 to 1), so 1 applies\n")


WITHOUT = """
#include <stdio.h>
#include <string.h>
extern char *volatile kept;
int main(void)
{
    char line[300];
    FILE *file = fopen("/proc/self/maps", "r");
    int bug(void);
    bug();
    while (fgets(line, sizeof line, file) != NULL)
        if (strncmp(line, "51000", 5) == 0)
            puts(line);
    return 0;
}
"""


def check_off(suite: Suite, folder: str, compiler: Compiler) -> None:
    """If nothing is recorded there is no fake stack, nor in a child that is not recorded."""
    write(folder, bug_c=BUG, main_c=WITHOUT)
    for mode in ("runtime", "always"):
        for flags in ((), ["-static"]):
            compiler.c(folder, ["bug.c", "main.c"], f"{folder}/program", OPTION + mode, *flags)
            ran = run(["./program"], folder)
            expect((ran.returncode, ran.stdout, ran.stderr), (0, b"", b""), f"{mode} {flags}")
            ran = run(["./program"], folder, ASANCOL_TRACE="t.trace")
            expect(ran.stdout != b"", True, f"{mode} {flags}, recorded")
            expect(reports(suite.asancol, f"{folder}/t.trace")[1], [FOUND], f"{mode} {flags}")
            os.unlink(f"{folder}/t.trace")


OPENS = """
#include <dlfcn.h>
int main(void)
{
    void *library = dlopen("./libbug.so", RTLD_NOW);
    int (*bug)(void) = (int (*)(void))dlsym(library, "bug");
    return bug();
}
"""


def check_shared_object(suite: Suite, folder: str, compiler: Compiler) -> None:
    """In a recorded program, which was compiled for it or not, linked or opened; and in one without a recorder."""
    write(folder, bug_c=BUG, main_c=MAIN, opens_c=OPENS)
    for mode in ("runtime", "always"):
        asked = OPTION + mode
        compiler.c(folder, ["bug.c"], f"{folder}/libbug.so", asked, "-shared", "-fPIC", "-Wl,-z,defs")
        linked = ("-L.", "-lbug", "-Wl,-rpath,$ORIGIN")
        for argv in (["main.c", *linked], ["main.c", *linked, asked], ["opens.c"]):
            compiler.c(folder, argv, f"{folder}/program")
            expect(found(suite, folder), [FOUND], f"{mode} {argv}")
            compiler.c(folder, [it for it in argv if it != asked], f"{folder}/plain", native=True)
            ran = run(["./plain"], folder)
            expect((ran.returncode, ran.stderr), (0, b""), f"{mode} {argv}, a plain program")
    stays = compiler.name == "clang"
    expect(found(suite, folder, ASANCOL_USE_AFTER_RETURN="0"), [FOUND] if stays else [], "always, 0")
    # Linked by something else, it finds the program's.
    build([CC, "-O1", ASKED, "-fPIC", "-c", "bug.c"], folder, ASANCOL_CC=compiler.name)
    build([compiler.name, "-shared", "bug.o", "-o", "libbug.so"], folder)
    expect(found(suite, folder), [FOUND], "linked by the compiler alone")


def tests(suite: Suite, compiler: Compiler) -> None:
    front = f"{compiler} use after return"
    for level in ("-O0", "-O2") if compiler.cxx else ():
        flags, sources, sanitized = [level, "-w", "-std=c++17", "-pthread"], [f"{TESTS}/returns.cpp"], None
        program = suite.built(compiler.cpp, sources, f"returns-{compiler}{level}", *flags, ASKED)
        if compiler.has_sanitizer:
            flags.append("-fsanitize=address")
            sanitized = suite.built(compiler.cpp, sources, f"returns-{compiler}{level}-sanitized", *flags, native=True)
        for name in CASES:
            suite.test(f"{front} {level} {name}", check_case, program, sanitized, name)
    suite.test(f"{front} words", check_words, compiler)
    suite.test(f"{front} steps", check_steps, compiler)
    suite.test(f"{front} wrong words", check_wrong_words, compiler)
    suite.test(f"{front} setting", check_setting, compiler)
    suite.test(f"{front} off", check_off, compiler)
    suite.test(f"{front} shared object", check_shared_object, compiler)
