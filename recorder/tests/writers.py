"""The writers of a report: the process itself, at a halt, to its callback and of an address, and asancol-report from
the trace. Of drawn errors all say the same."""

import glob
import os
import random
import re

from support import TESTS, expect, run
from testing.programs import TOP

RUN = f"{TOP}/run/asancol-run"
SOURCES = (f"{TESTS}/writers.cpp", f"{TESTS}/writers_order.cpp")
CLASSES = {
    "heap": {"heap-buffer-overflow"}, "freed": {"heap-use-after-free", "heap-buffer-overflow"},
    "array": {"heap-use-after-free", "heap-buffer-overflow"}, "object": {"heap-use-after-free", "heap-buffer-overflow"},
    "retired": {"heap-use-after-free", "heap-buffer-overflow"}, "twice": {"double-free"}, "inside": {"bad-free"},
    "stray": {"bad-free"}, "stack": {"stack-buffer-overflow", "stack-buffer-underflow"},
    "scope": {"stack-use-after-scope", "stack-buffer-overflow", "stack-buffer-underflow"},
    "dynamic": {"dynamic-stack-buffer-overflow"},
    "global": {"global-buffer-overflow"}, "poison": {"use-after-poison", "heap-buffer-overflow"},
    "container": {"container-overflow", "heap-buffer-overflow"}, "copy": {"heap-buffer-overflow"},
    "text": {"heap-buffer-overflow"}, "negative": {"negative-size-param"}, "order": {"initialization-order-fiasco"},
}
DRAWS = 3
FRAME = re.compile(r"    #(\d+) 0x([0-9a-f]+) (.*)")
PLACE = re.compile(r"\((\S+)\+0x([0-9a-f]+)\)")
ORDER = {"ASANCOL_INIT_ORDER": "1"}


def drawn(kind, numbers):
    """The arguments of an error: it is near the end of what it is in, or before its start."""
    size = numbers.randrange(1, 200)
    width = numbers.choice((1, 2, 4, 8))
    ends = {"stack": 16, "scope": 16, "global": 24, "object": 8}
    end = ends.get(kind, size)
    at = numbers.choice((-numbers.randrange(1, 16), end + numbers.randrange(0, 16)))
    if kind in ("freed", "array", "object", "retired", "scope", "poison", "container") and numbers.random() < 0.7:
        at = numbers.randrange(0, end)
    if kind in ("global", "dynamic"):
        at = end + numbers.randrange(0, 8)
    if kind == "stack":
        at = numbers.choice((-9, 17, 20, 24))
    if kind == "poison":
        size = max(size, 8)
    if kind == "container":
        size, at = max(size, 40), numbers.randrange(8, 32)
    if kind in ("copy", "inside"):
        at = numbers.randrange(1, max(size, 2))
    return [kind, str(size), str(at), str(width)]


def first_report(text):
    """A report by its lines: without its end, and what invents registers."""
    text = text[text.index("==ERROR: "):]
    lines = text[:text.index("\n", text.index("SUMMARY: "))].splitlines()
    lines[-1] = lines[-1].split(" (")[0].split(" /")[0]
    return [re.sub(r" bp 0x\w+ sp 0x\w+| \(BuildId: \w+\)", "", it) for it in lines]


def by_trace(lines):
    """Frames by their addresses: a trace has functions for some, and those that are inlined at the same address. The
    first two of a stack may be one call, with the function that was called."""
    found, last = [], ""
    for line in lines:
        frame = FRAME.fullmatch(line)
        if frame is None:
            found.append(line)
        elif frame[1] in ("0", "1") or frame[2] != last:
            number = 1 + int(found[-1][1:].split()[0]) if frame[1] != "0" else 0
            found.append(f"#{number} {frame[2]}")
        last = frame[2] if frame else ""
    return found


def without_ends(lines, wanted):
    """Lines of the process, without frames that stand below those of a trace."""
    counts, at = [len(it) for it in stacks_of(wanted)], -1
    kept = []
    for line in lines:
        number = re.match(r"#(\d+) ", line)
        at += number is not None and number[1] == "0"
        if number is None or at >= len(counts) or int(number[1]) < counts[at]:
            kept.append(line)
    return kept


def stacks_of(lines):
    found = []
    for line in lines:
        if line.startswith("#0 "):
            found.append([])
        if line.startswith("#"):
            found[-1].append(line)
    return found


def take(folder, name):
    (path,) = glob.glob(f"{folder}/{name}")
    with open(path, encoding="utf-8") as file:
        text = file.read()
    os.unlink(path)
    return text


def class_of(line):
    attempts = {"attempting double-free": "double-free", "attempting free": "bad-free"}
    said = line.partition("AddressSanitizer: ")[2]
    return next((name for front, name in attempts.items() if said.startswith(front)), re.match(r"[\w-]+", said)[0])


def check_places(lines, program):
    """The offset of each frame is one that the file's own symbols have: that of a program that is not PIE is the whole
    address."""
    for line in lines:
        frame, place = FRAME.fullmatch(line), PLACE.search(line)
        if frame is None or place is None or place[1] != program.path:
            continue
        expect(int(frame[2], 16) - int(place[2], 16) == 0, program.is_fixed, line)


def check_rows(text, kind):
    """The heap is redzones and freed memory, and poisoned only where the program has poisoned it."""
    rows = re.findall(r"(?m)^(?:=>|  )0x\w+:(.*)$", text)
    expect("f7" in " ".join(rows), kind == "poison", f"poison: {text}")
    bad = re.search(r"\[(\w\w)\]", "".join(rows))
    if bad and "ERROR: AddressSanitizer: heap-use-after-free" in text:
        expect(bad[1], "fd", text)
    if bad and kind == "heap":
        expect(bad[1] == "fa" or int(bad[1], 16) < 8, True, text)


class Program:
    def __init__(self, path, is_fixed):
        self.path, self.is_fixed = path, is_fixed


def check_error(suite, folder, program, kind, numbers):
    argv = [program.path, *drawn(kind, numbers)]
    what = " ".join(argv[1:])
    run([RUN, "--leaks=no", "--format=asan", f"--log-path={folder}/log", "--", *argv], folder, ASANCOL=suite.asancol,
        **ORDER)
    told, said, ours = first_report(take(folder, "writers.told")), take(folder, "writers.said.*"), take(folder, "log.*")
    wanted = by_trace(first_report(ours))
    expect("\n".join(without_ends(by_trace(told), wanted)), "\n".join(wanted), f"{what}: told, and from the trace")
    expect(class_of(told[0]) in CLASSES[kind], True, f"{what}: {told[0]}")
    check_rows(ours, kind)
    check_places(told, program)
    check_places(first_report(ours), program)
    if argv[-1] == "1" or kind in ("twice", "inside", "stray", "text"):
        expect(said.rstrip() in "\n".join(told), True, f"{what}: described: {said} in {told}")
    halted = run(argv, folder, ASANCOL_HALT="1", ASANCOL_RUN="0", **ORDER)
    told = first_report(take(folder, "writers.told"))
    expect("\n".join(first_report(halted.stderr.decode())), "\n".join(told), f"{what}: at a halt, and told")
    expect(class_of(told[0]) in CLASSES[kind], True, f"{what}: at a halt: {told[0]}")
    take(folder, "writers.said.*")


def check_kind(suite, folder, pie, fixed, kind):
    numbers = random.Random(f"{kind} {os.environ.get('SEED', '')}")
    for _ in range(DRAWS):
        for program in (Program(pie, False), Program(fixed, True)):
            check_error(suite, folder, program, kind, numbers)


def tests(suite, compiler):
    if not compiler.cxx:
        return
    pie, fixed = (suite.built(compiler.cpp, SOURCES, f"writers-{compiler}-{flags[0]}", "-w", "-O0", *flags)
                  for flags in (("-fPIE", "-pie"), ("-fno-PIE", "-no-pie")))
    for kind in CLASSES:
        suite.test(f"{compiler} writers of {kind}", check_kind, pie, fixed, kind)
