"""Names of classes: as AddressSanitizer has them, from the shadow at the bad byte."""

import json
import re
import xml.dom.minidom
from typing import Any, Dict

from testing import expect, expect_in, expect_not_in
from testing.reports import build, report, report_test, write_trace
from testing.side import fault, of_program, side

END = "p0 end closed events 9 offset 99 reports 1\n"
STACK, POISON = "stack-buffer-overflow", "use-after-poison"
HEAP, FREED, GLOBAL = "heap-buffer-overflow", "heap-use-after-free", "global-buffer-overflow"

# The byte of the shadow, the verdict of asancol, and what that comes to.
NAMES = [
    ("f1", STACK, "stack-buffer-underflow"),
    ("f2", STACK, STACK),
    ("f3", STACK, STACK),
    ("f5", STACK, "stack-use-after-return"),
    ("f8", STACK, "stack-use-after-scope"),
    ("ca", STACK, "dynamic-stack-buffer-overflow"),
    ("cb", STACK, "dynamic-stack-buffer-overflow"),
    ("05 f3", STACK, STACK),
    ("07 cb", STACK, "dynamic-stack-buffer-overflow"),
    ("f9", GLOBAL, GLOBAL),
    ("04 f9", GLOBAL, GLOBAL),
    ("fa", HEAP, HEAP),
    ("fa", POISON, HEAP),
    ("05 fa", HEAP, HEAP),
    ("ac", POISON, HEAP),
    ("fc", POISON, "container-overflow"),
    ("01 fc", POISON, "container-overflow"),
    ("bb", POISON, "intra-object-overflow"),
    ("f7", POISON, POISON),
    ("fd", FREED, FREED),
    # What the shadow says is against the verdict: another thread was faster.
    ("fd", HEAP, HEAP),
    ("fa", FREED, FREED),
    ("fd", POISON, POISON),
    ("f1", GLOBAL, GLOBAL),
    ("00", STACK, STACK),
    ("05 00", STACK, STACK),
    ("f8", "unknown-crash", "unknown-crash"),
    ("ee", HEAP, HEAP),
]


def line(verdict: str, address: int = 0x2008, words: str = "load 4", event: int = 1) -> str:
    bad = "" if words in ("free", "malloc 4") else f" bad {address:012x}"
    return f"p0 #{event} {words} at {address:012x}{bad} {verdict}{' shadow fa' if bad else ''}\n"


def rows(text: str) -> Dict[str, Any]:
    """The shadow from 0x1d80 on, with these bytes at 0x2008."""
    return {"shadow": bytes(81) + bytes.fromhex(text), "shadow_start": 0x1D80}


def title_of(text: str) -> str:
    return re.findall(r"ERROR: asancol: (.*)", text)[0]


@report_test
def classes_are_addresssanitizers(folder: str) -> None:
    for shadow, verdict, name in NAMES:
        write_trace(folder, "a.trace", line(verdict) + END, side(faults=[fault(0x10, **rows(shadow))], index=[1]))
        ran = report(folder, "--trace", "a.trace", "--json", "a.jsonl")
        expect(title_of(ran.out), f"{name}: load of 4 bytes", f"{shadow} {verdict}")
        with open(f"{folder}/a.jsonl", encoding="utf-8") as file:
            found = next(it for it in map(json.loads, file) if it["type"] == "finding")
        expect((found["class"], found.get("raw_class", name)), (name, verdict), f"{shadow} {verdict}")
        expect(report(folder, "a.jsonl").out, ran.out, "read again")


@report_test
def classes_without_shadow(folder: str) -> None:
    """The verdict's name stands, where the shadow was not kept, or is of another place."""
    without: Dict[str, Any] = {}
    for more in (without, {"shadow": bytes.fromhex("f1"), "shadow_start": 0},
                 {"shadow": b"\xf1" * 176, "shadow_start": 0x2010},
                 {"shadow": b"\xf1" * 176, "shadow_start": 0x2008 - 176 * 8}):
        write_trace(folder, "a.trace", line(STACK) + END, side(faults=[fault(0x10, **more)], index=[1]))
        expect(title_of(report(folder, "--trace", "a.trace").out), f"{STACK}: load of 4 bytes", str(more))


@report_test
def far_from_blocks_is_an_overflow(folder: str) -> None:
    """Memory of the allocator that is in no block is poison; a program poisons what it has."""
    for block, name in ((0x1000, HEAP), (0x2000, POISON), (0, POISON)):
        write_trace(folder, "a.trace", line(POISON) + END, side(faults=[fault(0x10, block, 64, **rows("f7"))],
                                                                index=[1]))
        expect(title_of(report(folder, "--trace", "a.trace").out), f"{name}: load of 4 bytes", hex(block))
    faults = [fault(0x10, 0x1000, 64, variable=1, name="x", **rows("f7"))]
    write_trace(folder, "a.trace", line(POISON) + END, side(faults=faults, index=[1]))
    expect(title_of(report(folder, "--trace", "a.trace").out), f"{POISON}: load of 4 bytes", "near a variable")


@report_test
def calls_have_names_and_sizes(folder: str) -> None:
    """One call is one report: of all that it was asked to access."""
    program = build(folder)
    at = program.places["use"]
    calls = [fault(at, 0x2000, 8, call="memcpy", access=(0x2000, 13), **rows("fa")),
             fault(at, 0x2000, 8, call="memcpy", access=(0x2000, 14), **rows("fa")),
             fault(at, 0x2000, 8, call="memset", access=(0x2000, (1 << 64) - 1), **rows("fa")),
             fault(at, 0x2000, 8, access=(0x2000, 16), **rows("fa")),
             fault(at, 0x2000, 8, call="\x1b[1m", access=(0x2008, 1), **rows("fa"))]
    for number, (events, title) in enumerate((
        ((1, 1), f"{HEAP}: load of 13 bytes in memcpy (2 times, 1 process)"),
        ((2,), f"{HEAP}: load of 14 bytes in memcpy"),
        ((3,), "negative-size-param: (size=-1) in memset"),
        ((4,), f"{HEAP}: load of 16 bytes"),
        ((5,), f"{HEAP}: load of 1 byte in \\x1b[1m"),
    )):
        text = "".join(line(HEAP, event=it, words=f"load {8 if it < 5 else 1}") for it, _ in enumerate(events, 1))
        write_trace(folder, "a.trace", text + END, of_program(program, calls, list(events)))
        ran = report(folder, "--trace", "a.trace", "--json", "a.jsonl")
        expect(title_of(ran.out), title, str(number))
        expect(report(folder, "a.jsonl").out, ran.out, "read again")


@report_test
def a_hook_of_a_system_call_has_the_name_of_asan(folder: str) -> None:
    program = build(folder)
    for access, moment in (("load", "pre"), ("store", "post")):
        one = fault(program.places["use"], 0x2000, 8, call="sys_read", access=(0x2000, 13), **rows("fa"))
        write_trace(folder, "a.trace", line(HEAP, words=f"{access} 8") + END, of_program(program, [one], [1]))
        expect_in(report(folder, "--trace", "a.trace").out, f"{access} of 13 bytes in sys_read")
        ran = report(folder, "--trace", "a.trace", "--format=asan")
        expect_in(ran.out, f" in __sanitizer_syscall_{moment}_impl_read (")


@report_test
def a_call_that_reads_and_writes_is_said_once(folder: str) -> None:
    program = build(folder)
    one = fault(program.places["use"], 0x2000, 8, call="memmove", access=(0x2000, (1 << 64) - 1), **rows("fa"))
    text = line(HEAP, words="load 8") + line(HEAP, words="store 8", event=2)
    write_trace(folder, "a.trace", text + END, of_program(program, [one], [1, 1]))
    ran = report(folder, "--trace", "a.trace")
    expect((ran.out.count("(size=-1) in memmove"), ran.out.count("also at")), (1, 0), ran.out)


@report_test
def frees_are_attempts(folder: str) -> None:
    for verdict, title in (("double-free", "attempting double-free"),
                           ("bad-free", "attempting free on address which was not malloc()-ed")):
        write_trace(folder, "a.trace", line(verdict, words="free") + END, side(faults=[fault(0x10)], index=[1]))
        ran = report(folder, "--trace", "a.trace", "--sarif", "a.sarif", "--junit", "a.xml")
        expect(title_of(ran.out), title, verdict)
        with open(f"{folder}/a.sarif", encoding="utf-8") as file:
            expect(json.load(file)["runs"][0]["results"][0]["ruleId"], verdict, "the rule")
        (failure,) = xml.dom.minidom.parse(f"{folder}/a.xml").getElementsByTagName("failure")
        expect(failure.getAttribute("type"), verdict, "the type")


@report_test
def both_names_match(folder: str) -> None:
    """Suppressions and baselines of the coarse names go on to match; and fingerprints are those of the coarse ones."""
    program = build(folder)
    parts = of_program(program, [fault(program.places["use"], 0x2000, 8, variable=1, name="x", **rows("f8"))], [1])
    write_trace(folder, "a.trace", line(STACK) + END, parts)
    report(folder, "--trace", "a.trace", "--json", "a.jsonl")
    for rule in ("stack-use-after-scope:use", f"{STACK}:use", f"at:{STACK}:use@program.c",
                 "at:stack-use-after-scope:use@program.c"):
        with open(f"{folder}/rules", "w", encoding="utf-8") as file:
            file.write(rule + "\n")
        expect_in(report(folder, "a.jsonl", "--suppressions", "rules").out, "no reports, 1 suppressed;")
    with open(f"{folder}/rules", "w", encoding="utf-8") as file:
        file.write("at:stack-use-after-return:use\nstack-buffer-underflow:use\n")
    expect_not_in(report(folder, "a.jsonl", "--suppressions", "rules").out, "suppressed;")
    expect_in(report(folder, "a.jsonl", "--gen-suppressions").out, "suppression: at:stack-use-after-scope:use@")
    # As the release before wrote it.
    coarse = of_program(program, [fault(program.places["use"], 0x2000, 8, variable=1, name="x")], [1])
    write_trace(folder, "b.trace", line(STACK) + END, coarse)
    report(folder, "--trace", "b.trace", "--json", "b.jsonl")
    expect_in(report(folder, "a.jsonl", "--baseline", "b.jsonl").out, "no reports, 1 place known from the baseline;")


@report_test
def two_bugs_in_a_line_are_two(folder: str) -> None:
    """Those of two variables, of blocks from two mallocs, and of two classes; but not of two addresses or processes."""
    program = build(folder)
    places = program.places
    heap: Dict[str, Any] = {"variable": 0, **rows("fa")}
    stack: Dict[str, Any] = {"variable": 1, **rows("f3")}
    for faults, verdict, count in (
        ([fault(places["use"], 0x2000, 8, name="x", **stack), fault(places["use"], 0x2000, 8, name="y", **stack)],
         STACK, 2),
        ([fault(places["use"], 0x2000, 8, places[name], **heap) for name in ("make", "drop")], HEAP, 2),
        # Far from both, nobody knows which block was meant.
        ([fault(places["use"], 0x9000, 8, places[name], **heap) for name in ("make", "drop")], HEAP, 1),
        ([fault(places["use"], 0x2000, 8, places["make"], **rows(it)) for it in ("fa", "05 fa")], HEAP, 1),
        ([fault(places["use"], 0x2000, 8, name="x", variable=1, **rows(it)) for it in ("f3", "f1")], STACK, 2),
    ):
        text = line(verdict) + line(verdict, event=2, words="load 8")
        for name in ("a", "b"):
            write_trace(folder, f"{name}.trace", text + END, of_program(program, faults, [1, 2], process=ord(name)))
        ran = report(folder, "--trace", "a.trace", "b.trace", "--json", "a.jsonl", "--html", "a.html")
        expect_in(ran.out, f"4 reports at {count} place")
        expect_in(report(folder, "a.jsonl", "a.jsonl").out, f"4 reports at {count} place")
        with open(f"{folder}/a.jsonl", encoding="utf-8") as file:
            found = [it for it in map(json.loads, file) if it["type"] == "finding"]
        expect((len(found), len({it["fingerprint"] for it in found})), (2 * count, 1), "findings")
        with open(f"{folder}/a.html", encoding="utf-8") as file:
            marks = re.findall(r'id="([0-9a-f]{16}(?:-[0-9]+)?)"', file.read())
        expect((len(marks), len(set(marks))), (count, count), "marks of the page")
