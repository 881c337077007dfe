"""Programs for ARM (aarch64), built by a cross compiler and run under qemu: each has the report that AddressSanitizer
has of it there. They are checked by the same program as all others. Some are drawn: ARM_DRAWS in the environment says
how many bugs, from the seed ARM_SEED on."""

import os
import re
import shutil
from typing import Dict, List, NamedTuple, Optional, Tuple

import arm_drawn
from support import CC, RECORDER, TESTS, TOP, Compiler, Suite, build, expect, leave_out, run
from testing import Later, write_text
from testing.programs import REPORT

RUN = f"{TOP}/run/asancol-run"
MACHINE = "aarch64-linux-gnu"
CROSS = f"{MACHINE}-gcc"
QEMU = ("qemu-aarch64", "-L", f"/usr/{MACHINE}")
# A trace that is judged later, by another machine.
SAVED = {"ASANCOL_TRACE": "t.trace", "ASANCOL_WHERE": "1"}

BY_SANITIZER = re.compile(r"ERROR: AddressSanitizer: (?:attempting )?([\w-]+)(?: on address| on unknown)?[^\n]*\n"
                          r"(?:(?! +#).*\n)*(?: +#\d.*\n)*? +#\d+ 0x\w+ in (\w+) \S*arm\.c:(\d+)")
BY_ASANCOL = re.compile(r"ERROR: asancol: (?:attempting )?([\w-]+)[^\n]*\n"
                        r"(?: +#\d.*\n)*? +#\d+ 0x\w+ in (\w+) \S*arm\.c:(\d+)")


class Said(NamedTuple):
    """A report: its class, and the function and the line of its innermost frame in the program."""

    kind: str
    function: str
    line: int


def first_of(pattern: "re.Pattern[str]", text: str) -> Optional[Said]:
    found = pattern.search(text)
    if not found:
        return None
    # "attempting free on address which was not malloc()-ed"
    return Said("bad-free" if found[1] == "free" else found[1], found[2], int(found[3]))


def line_of(word: str) -> int:
    with open(f"{TESTS}/arm.c", encoding="utf-8") as file:
        return next(number for number, line in enumerate(file, 1) if f"/* {word} */" in line)


# What each bug is called, and in which function and line it is; by its argument.
BUGS: Dict[str, Tuple[str, str]] = {
    "heap": ("heap-buffer-overflow", "heap"),
    "below": ("heap-buffer-overflow", "below"),
    "freed": ("heap-use-after-free", "freed"),
    "twice": ("double-free", "twice"),
    "bad": ("bad-free", "bad"),
    "stack": ("stack-buffer-overflow", "stack"),
    "variable": ("global-buffer-overflow", "variable"),
    "early": ("global-buffer-overflow", "early"),
    "scope": ("stack-use-after-scope", "scope"),
    "copies": ("heap-buffer-overflow", "copies"),
    "prints": ("heap-buffer-overflow", "prints"),
    "compares": ("heap-buffer-overflow", "compares"),
    "thread": ("heap-buffer-overflow", "in_thread"),
    "child": ("heap-buffer-overflow", "child"),
    "handler": ("heap-buffer-overflow", "on_signal"),
    "returns": ("stack-use-after-return", "returns"),
}
LEVELS = ("-O0", "-O2")
# How many bugs are drawn.
DRAWS = 24


def compile_recorded(folder: str, sources: List[str], program: str, *flags: str) -> None:
    build([CC, "-g", *flags, *sources, "-o", program], folder, ASANCOL_CC=CROSS)


def make_library() -> None:
    build(["make", "-j2", f"CC={CROSS}"], RECORDER)


def make_program(folder: str, library: Later, level: str) -> None:
    library.made()
    compile_recorded(folder, [f"{TESTS}/arm.c"], f"{folder}/arm{level}", level, "-w",
                     "-fsanitize-address-use-after-return=runtime", "-fsanitize=pointer-subtract")


def make_sanitized(folder: str, level: str) -> None:
    flags = ("-g", level, "-w", "-fsanitize=address")
    build([CROSS, *flags, f"{TESTS}/arm.c", "-o", f"{folder}/sanitized{level}"], folder)


def check_readme(suite: Suite, folder: str, library: str) -> None:
    """The report of README.md's first screen, of a program for another processor, which is compiled and then linked."""
    compile_recorded(folder, [f"{TOP}/examples/bug.c"], "bug.o", "-c")
    compile_recorded(folder, ["bug.o"], "bug")
    ran = run([RUN, "--", *QEMU, "./bug", "Alice"], folder, ASANCOL=suite.asancol)
    text = ran.stderr.decode()
    for part in ("ERROR: asancol: heap-buffer-overflow: store of 6 bytes in strcpy\n", " in main ", "bug.c:11:5\n",
                 " is 0 bytes past the end of a block of 5 bytes\n", "bug.c:10:1",
                 "1 process, 6 events; all complete\n"):
        expect(part in text, True, f"{part!r} in {text}")
    expect((ran.returncode, ran.stdout), (99, b"Alice\n"), text)


def check_bug(suite: Suite, folder: str, program: str, sanitized: str, word: str) -> None:
    """The class, the function and the line are those that AddressSanitizer says, and the stack begins in `main`."""
    kind, function = BUGS[word]
    line = line_of({"in_thread": "thread", "on_signal": "handler"}.get(function, function))
    ran = run([RUN, "--leaks=no", "--", *QEMU, program, word], folder, ASANCOL=suite.asancol)
    text = ran.stderr.decode()
    expect((first_of(BY_ASANCOL, text), ran.returncode), (Said(kind, function, line), 99), text)
    expect(text.count("ERROR: asancol"), 1, text)
    told = told_of(text, "arm.c")
    first = function if word in ("thread", "handler", "early") else "main"  # a report's stack ends with its handler
    expect(told.frames[-1][0] if told else "", first, text)
    ran = run([*QEMU, sanitized, word], folder, ASAN_OPTIONS="detect_leaks=0:detect_stack_use_after_return=1")
    text = ran.stderr.decode()
    expect(first_of(BY_SANITIZER, text), Said(kind, function, line), text)


def check_others(suite: Suite, folder: str, program: str) -> None:
    """A leak, for which AddressSanitizer needs ptrace; a null pointer; and a program that does nothing wrong."""
    ran = run([RUN, "--leaks=yes", "--", *QEMU, program, "leak"], folder, ASANCOL=suite.asancol)
    text = ran.stderr.decode()
    expect(("Direct leak of 10 byte(s)" in text, "in leak " in text, ran.returncode), (True, True, 99), text)
    ran = run([RUN, "--", *QEMU, program, "null"], folder, ASANCOL=suite.asancol)
    text = ran.stderr.decode()
    expect((f"arm.c:{line_of('null')}" in text, "store" in text), (True, True), text)
    ran = run([RUN, "--", *QEMU, program, "good"], folder, ASANCOL=suite.asancol, ASANCOL_POINTER_PAIRS="1")
    text = ran.stderr.decode()
    expect((ran.returncode, "no reports; 3 processes" in text, "all complete" in text), (0, True, True), text)


def check_saved(suite: Suite, folder: str, program: str) -> None:
    """A trace that a program has left in a file is judged elsewhere."""
    ran = run([*QEMU, program, "freed"], folder, **SAVED)
    expect((ran.returncode, ran.stderr), (0, b""), "the program")
    os.mkdir(f"{folder}/copied")
    for name in ("t.trace", "t.trace.where"):
        shutil.move(f"{folder}/{name}", f"{folder}/copied/{name}")
    ran = run([REPORT, "--trace", "copied/t.trace"], folder, ASANCOL=suite.asancol)
    text = ran.stdout.decode() + ran.stderr.decode()
    expect(first_of(BY_ASANCOL, text), Said("heap-use-after-free", "freed", line_of("freed")), text)


ERROR = re.compile(r"ERROR: (?:AddressSanitizer|asancol): (?:attempting )?([\w-]+)(?:: (load|store) of (\d+))?")
ACCESS = re.compile(r"(READ|WRITE) of size (\d+) at")
# Its size depends on where a zero lies past the buffer.
ENDS_ANYWHERE = re.compile(r" in (?:__interceptor_)?(?:strn?len|strdup|strcat)\b")
FRAME = re.compile(r" +#(\d+) 0x\w+ in (\w+) \S*?(\w+\.c):(\d+)")


class Told(NamedTuple):
    """The first report of a run: its class, the access, and the function and line of each frame in the program."""

    kind: str
    access: str
    size: str
    frames: List[Tuple[str, int]]


def told_of(text: str, source: str) -> Optional[Told]:
    """What either of the two has said."""
    lines = iter(text[text.find("ERROR: "):].splitlines())
    error = ERROR.search(next(lines, ""))
    if not error:
        return None
    kind, access, size = error[1], error[2] or "", error[3] or ""
    frames: List[Tuple[str, int]] = []
    next_frame = 0
    for line in lines:
        said, number = ACCESS.match(line), re.match(r" +#(\d+) ", line)
        if said:
            access, size = {"READ": "load", "WRITE": "store"}[said[1]], said[2]
        if number:
            if int(number[1]) != next_frame:
                break
            next_frame += 1
            frame = FRAME.match(line)
            if frame and frame[3] == source:
                frames.append((frame[2], int(frame[4])))
        elif next_frame > 0 and not re.match(r" +(\d+ )?\|", line):
            break
    size = "" if ENDS_ANYWHERE.search(text) else size
    return Told("bad-free" if kind == "free" else kind, access, size, frames)


def check_drawn(suite: Suite, folder: str, library: str, seed: int) -> None:
    """Bugs that are drawn: the class, the access, its size and the frames in the program are AddressSanitizer's."""
    drawn = arm_drawn.drawn(seed)
    source = f"drawn_{seed}.c"
    write_text(f"{folder}/{source}", drawn.text)
    flags = ["-w", "-pthread", "-fsanitize-address-use-after-return=never", *drawn.flags]
    compile_recorded(folder, [source], "recorded", *flags)
    build([CROSS, "-g", "-w", "-pthread", "-fsanitize=address", *drawn.flags, source, "-o", "sanitized"], folder)
    sanitized = run([*QEMU, "./sanitized"], folder, ASAN_OPTIONS="detect_leaks=0").stderr.decode().split("BUG\n")[1:]
    expect(len(sanitized), arm_drawn.EACH, f"seed {seed}")
    for number, wanted in enumerate(sanitized):
        of = f"seed {seed}, bug {number}, {' '.join(drawn.flags)}"
        ran = run([RUN, "--leaks=no", "--", *QEMU, "./recorded", str(number)], folder, ASANCOL=suite.asancol)
        found = ran.stderr.decode()
        expect(told_of(found, source), told_of(wanted, source), f"{of}: {found}{wanted}")
        expect((found.count("ERROR: asancol"), ran.returncode), (1, 99), f"{of}: {found}")


def what_is_missing() -> str:
    missing = [it for it in (CROSS, QEMU[0]) if shutil.which(it) is None]
    return " and ".join(missing)


def tests_of_all(suite: Suite) -> None:
    missing = what_is_missing()
    if missing:
        leave_out(f"programs for ARM: {missing} is not there")
        return
    library = Later(RECORDER, make_library)
    suite.test("arm: the bug of README.md", check_readme, library)
    for level in LEVELS:
        program = Later(f"{suite.folder}/arm{level}", make_program, suite.folder, library, level)
        sanitized = Later(f"{suite.folder}/sanitized{level}", make_sanitized, suite.folder, level)
        for word in BUGS:
            suite.long_test(f"arm: {word} {level}", check_bug, program, sanitized, word)
        suite.long_test(f"arm: others {level}", check_others, program)
        suite.long_test(f"arm: a saved trace {level}", check_saved, program)
    draws, first = int(os.environ.get("ARM_DRAWS", DRAWS)), int(os.environ.get("ARM_SEED", 1))
    for seed in range(first, first + -(-draws // arm_drawn.EACH)):
        suite.long_test(f"arm: drawn {seed}", check_drawn, library, seed)


def tests(suite: Suite, compiler: Compiler) -> None:
    """None of them is by a compiler for this machine."""
