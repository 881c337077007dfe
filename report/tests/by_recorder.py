"""Findings of the recorder, which have no event: in each output, beside reports of the checker."""

import json
import re
import xml.dom.minidom
from typing import Any, Dict, List, Tuple

from testing import expect, expect_in, expect_not_in, write_text
from testing.reports import END, FORMS, FREED, OVERFLOW, Feed, build, freed_block, report, report_test, write_trace
from testing.side import finding, of_program
from asancol_report import side as layout
from asancol_report.class_names import CLASSES

LEAK, INDIRECT, FAMILY, SIZE, OVERLAP, NEGATIVE, PRODUCT, ALIGNMENT, TOO_BIG, NOT_OWNED, OTHER_ALIGNMENT = range(1, 12)
CONTAINER, DOUBLE_ENDED, POINTERS, NO_MEMORY, ODR, SHADOW = range(12, 18)
CLEAN = END.replace("reports 1", "reports 0")
MINUS_FIVE = (1 << 64) - 5


def parts_of(folder: str, *found: bytes, **more: Any) -> Any:
    return of_program(build(folder), found, (), findings=len(found), **more)


def mismatch(places: Dict[str, int], **more: Any) -> bytes:
    return finding(FAMILY, places["drop"], 0x2000, 40, places["make"], "operator delete", "malloc", **more)


def one_of_each(places: Dict[str, int]) -> List[bytes]:
    here, made = places["use"], places["make"]
    return [
        finding(LEAK, made, given=(0, 24), count=3, after=12), finding(INDIRECT, made, given=(0, 8), after=13),
        mismatch(places, after=1),
        finding(SIZE, here, 0x2000, 40, made, "operator delete", "operator new", (0, 4), after=2),
        finding(OVERLAP, here, 0x2000, 16, made, "memcpy", given=(0x2004, 8), other=0x2000, after=3),
        finding(NEGATIVE, here, 0x2000, 16, made, "memmove", given=(0x2000, MINUS_FIVE), after=4),
        finding(PRODUCT, here, call="calloc", given=(0, 1 << 62), other=5, after=5),
        finding(PRODUCT, here, call="pvalloc", given=(0, MINUS_FIVE), after=6),
        finding(ALIGNMENT, here, call="aligned_alloc", given=(7, 16), after=7),
        finding(ALIGNMENT, here, call="posix_memalign", given=(2, 16), after=8),
        finding(OTHER_ALIGNMENT, places["drop"], 0x3000, 40, made, "operator delete", "operator new", (64, 0), after=9),
        finding(TOO_BIG, here, given=(0, 1 << 60), count=2, after=10),
        finding(NOT_OWNED, here, 0x2000, 16, made, "malloc_usable_size", given=(0x2000, 0), freed=places["drop"],
                after=11),
        finding(NOT_OWNED, here, call="__sanitizer_get_allocated_size", given=(0x5000, 0), after=11),
        finding(CONTAINER, here, given=(0x2000, 64), other=0x2041, after=11),
        finding(DOUBLE_ENDED, here, given=(0x2000, 64), other=0x1fff, after=11),
        finding(POINTERS, here, given=(0x2000, 0), other=0x3000, after=11),
        finding(NO_MEMORY, here, given=(0, 1 << 39), after=11),
        finding(ODR, here, 0x4000, 40, name="shared one.c:7", given=(0x4000, 80), after=11),
        finding(SHADOW, here, 0x2000, 16, made, name="malloc", given=(0x2010, 8), other=0xFA00, after=11),
    ]


TITLES = (
    "alloc-dealloc-mismatch: malloc vs operator delete",
    "new-delete-type-mismatch: operator delete of 4 bytes, and 40 bytes were allocated",
    "memcpy-param-overlap: memory ranges [0x2004, 0x200c) and [0x2000, 0x2008) overlap",
    "negative-size-param: (size=-5) in memmove",
    "calloc-overflow: 5 * 4611686018427387904 bytes are more than a size can say",
    "pvalloc-overflow: 18446744073709551611 bytes, rounded up to a page, are more than a size can say",
    "invalid-aligned-alloc-alignment: alignment 7 of 16 bytes in aligned_alloc",
    "invalid-posix-memalign-alignment: alignment 2 of 16 bytes in posix_memalign",
    "new-delete-type-mismatch: operator delete with alignment 64, and 40 bytes with no alignment were allocated",
    "allocation-size-too-big: request for 1152921504606846976 bytes (2 times, 1 process)",
    "bad-malloc_usable_size: malloc_usable_size of a pointer to no block",
    "bad-__sanitizer_get_allocated_size: __sanitizer_get_allocated_size of a pointer to no block",
    "bad-__sanitizer_annotate_contiguous_container: 0x2041 is not in the container's memory [0x2000, 0x2040)",
    "bad-__sanitizer_annotate_double_ended_contiguous_container: 0x1fff is not in the container's memory "
    "[0x2000, 0x2040)",
    "invalid-pointer-pair: 0x2000 and 0x3000",
    "out-of-memory: request for 549755813888 bytes, and there is no memory",
    "odr-violation: global 'shared' of 80 bytes at one.c:7, and of 40 bytes at an unknown place",
    "bad-shadow: the shadow byte of 0x2010 is 00, and should be fa",
    "detected memory leaks",
    "detected memory leaks",
)


@report_test
def each_kind(folder: str) -> None:
    program = build(folder)
    each = one_of_each(program.places)
    write_trace(folder, "a.trace", CLEAN, of_program(program, each, (), findings=len(each)))
    ran = report(folder, "--trace", "a.trace", "--leaks=yes", *(f"--{name}=a.{name}" for name in FORMS))
    expect(ran.status, 1, ran.err)
    titles = re.findall(r"^==7==ERROR: asancol: (.*)$", ran.out, re.M)
    expect(titles, list(TITLES), "titles, in the order of what came before")
    expect_in(ran.out, "asancol: 21 reports at 20 places; 1 process, 9 events; all complete\n",
              "0x2000 is byte 0 of a block of 40 bytes\n  allocated at\n", "in make ",
              "0x2004 is byte 4 of a block of 16", "0x2000 is byte 0 of a freed block of 16 bytes",
              "\nDirect leak of 24 byte(s) in 3 object(s) allocated from:\n    #0 ",
              "\nIndirect leak of 8 byte(s) in 1 object(s) allocated from:\n    #0 ",
              " in shared one.c:7\n")
    expect_not_in(ran.out, "address 0x0", "0x0 is")
    with open(f"{folder}/a.json", encoding="utf-8") as file:
        found = [it for it in map(json.loads, file) if it["type"] == "finding"]
    expect({it["by"] for it in found}, {"recorder"}, "who has judged")
    expect({it["event"] for it in found}, {0}, "events")
    expect({it["class"] for it in found} - set(CLASSES), set(), "classes that can be suppressed")
    expect([it["size"] for it in found if it["class"].endswith("leak")], [24, 8], "bytes that are lost")
    again = report(folder, "a.json", "a.json", "--json", "b.json")
    expect((again.status, again.out), (1, ran.out), "read again")
    with open(f"{folder}/a.json", encoding="utf-8") as one, open(f"{folder}/b.json", encoding="utf-8") as other:
        expect(one.read(), other.read(), "both results")


@report_test
def alignments(folder: str) -> None:
    """A size that is no multiple, and what a delete says: each alignment, and the size if that is another one too."""
    program = build(folder)
    here, made, of_new = program.places["use"], program.places["make"], "new-delete-type-mismatch"
    for it, title in (
        (finding(ALIGNMENT, here, call="aligned_alloc", given=(64, 10)),
         "invalid-aligned-alloc-alignment: alignment 64 of 10 bytes in aligned_alloc: "
         "the size is not a multiple of it"),
        (finding(ALIGNMENT, here, call="aligned_alloc", given=(0, 10)),
         "invalid-aligned-alloc-alignment: alignment 0 of 10 bytes in aligned_alloc"),
        (finding(OTHER_ALIGNMENT, here, 0x2000, 40, made, "operator delete", "operator new", (64, 0), other=32),
         f"{of_new}: operator delete with alignment 64, and 40 bytes with alignment 32 were allocated"),
        (finding(OTHER_ALIGNMENT, here, 0x2000, 40, made, "operator delete []", "operator new []", (0, 4), other=128),
         f"{of_new}: operator delete [] of 4 bytes with no alignment, and 40 bytes with alignment 128 were allocated"),
    ):
        write_trace(folder, "a.trace", CLEAN, of_program(program, [it], (), findings=1))
        ran = report(folder, "--trace", "a.trace")
        expect_in(ran.out, f"==7==ERROR: asancol: {title}\n")
        expect_in(ran.out, *["0x2000 is byte 0 of a block of 40 bytes\n"] * (of_new in title))


def write_two(folder: str) -> None:
    """Leaves a result with a report of the checker and a wrong delete."""
    program = build(folder)
    parts = of_program(program, [freed_block(program), mismatch(program.places, count=2, after=9)], [0, 0, 0, 0, 1],
                       findings=1)
    write_trace(folder, "a.trace", FREED + END, parts)
    ran = report(folder, "--trace", "a.trace", "--gen-suppressions", *(f"--{name}=a.{name}" for name in FORMS))
    expect_in(ran.out, "3 reports at 2 places; 1 process",
              "ERROR: asancol: heap-use-after-free: load of 4 bytes\n", "(2 times, 1 process)\n",
              "suppression: at:alloc-dealloc-mismatch:drop@")


def text_of(folder: str, name: str) -> str:
    with open(f"{folder}/{name}", encoding="utf-8") as file:
        return file.read()


@report_test
def each_output(folder: str) -> None:
    write_two(folder)
    sarif = json.loads(text_of(folder, "a.sarif"))["runs"][0]
    expect([it["properties"].get("by") for it in sarif["results"]], [None, "recorder"], "SARIF")
    expect_in(sarif["results"][1]["message"]["text"], "malloc vs operator delete, byte 0 of a block of 40")
    expect_in(str(sarif["tool"]["driver"]["rules"]), "alloc-dealloc-mismatch", "does not match its allocation")
    entries = json.loads(text_of(folder, "a.codequality"))
    expect(["malloc vs operator delete" in it["description"] for it in entries], [False, True], "Code Quality")
    (case,) = xml.dom.minidom.parse(f"{folder}/a.junit").getElementsByTagName("failure")
    expect_in(case.getAttribute("message"),
              "alloc-dealloc-mismatch: malloc vs operator delete in drop")
    expect_in(case.firstChild.data, "(2 times, 1 process)")  # type: ignore[union-attr]
    page = text_of(folder, "a.html")
    expect(page.count("the checker did not judge it"), 1, "the page's sentences")
    expect_in(page, "except those that say")
    process = next(it for it in map(json.loads, text_of(folder, "a.json").splitlines()) if it["type"] == "process")
    expect((process["reports"], process["findings"]), (1, 1), "a process")


@report_test
def rules(folder: str) -> None:
    write_two(folder)
    program = build(folder)
    leaks = [finding(LEAK, program.places["make"], given=(0, 8)),
             finding(INDIRECT, program.places["use"], given=(0, 8))]
    write_trace(folder, "b.trace", CLEAN, of_program(program, leaks, (), findings=2))
    report(folder, "--trace", "b.trace", "--leaks=yes", "--json", "b.json")
    for name, rule, status, text in (
        ("a.json", "alloc-dealloc-mismatch:drop", 1, "1 report at 1 place, 2 suppressed;"),
        ("a.json", "at:alloc-dealloc-mismatch:drop@program.c", 1, "1 report at 1 place, 2 suppressed;"),
        ("a.json", "fun:^make$", 0, "no reports, 3 suppressed;"),
        ("a.json", "*:program", 0, "no reports, 3 suppressed;"),
        ("b.json", "leak:program", 0, "no reports, 2 suppressed;"),
        ("b.json", "indirect-leak:program", 1, "1 report at 1 place, 1 suppressed;"),
        ("b.json", "at:leak:make", 1, "1 report at 1 place, 1 suppressed;"),
        ("b.json", "alloc-dealloc-mismatch:*", 1, "a suppression matched nothing"),
    ):
        with open(f"{folder}/rules", "w", encoding="utf-8") as file:
            file.write(rule + "\n")
        ran = report(folder, name, "--suppressions", "rules")
        expect(ran.status, status, rule)
        expect_in(ran.out, text)
    for rule, text in (("", "asancol: leaks: 16 bytes in 2 blocks at 2 places; --leaks=yes shows them\n"),
                       ("leak:make\n", "asancol: leaks: 8 bytes in 1 block at 1 place; --leaks=yes shows them\n")):
        with open(f"{folder}/rules", "w", encoding="utf-8") as file:
            file.write(rule)
        ran = report(folder, "--trace", "b.trace", "--leaks=summary", "--suppressions", "rules", "--json", "c.json")
        expect((ran.status, ran.out.endswith(text)), (0, True), ran.out)
        again = report(folder, "c.json", "c.json")
        expect((again.status, again.out), (0, ran.out), "read again")
        expect_in(report(folder, "c.json", "--format=asan").out, "; ASAN_OPTIONS=detect_leaks=1 shows them\n")
    ran = report(folder, "--trace", "b.trace")
    expect((ran.status, "2 reports at 2 places" in ran.out), (1, True), ran.out)
    ran = report(folder, "--trace", "b.trace", "--leaks=no")
    expect((ran.status, "leak" in ran.out), (0, False), ran.out)
    ran = report(folder, "b.json", "a.json", "--baseline", "a.json")
    expect_in(ran.out, "2 reports at 2 places, 2 places known from the baseline")
    ran = report(folder, "a.json", "b.json", "--baseline", "b.json")
    expect_in(ran.out, "3 reports at 2 places, 2 places known from the baseline")


@report_test
def merged_processes(folder: str) -> None:
    program = build(folder)
    feed = Feed(folder, "--json", "a.json")
    feed.begin()
    for number in range(3):
        parts = of_program(program, [mismatch(program.places, count=number + 1)], (), findings=1)
        feed.process(number, CLEAN, parts, findings=1, reports=0)
    ran = feed.end()
    expect(ran.status, 1, "the status")
    expect_in(ran.out, "(6 times, 3 processes)",
              "6 reports at 1 place; 3 processes")
    feed = Feed(folder)
    feed.begin("run-2")
    feed.process(0, findings=1)
    expect_in(feed.end().out, "INCOMPLETE: its reports did not arrive")


@report_test
def segments_of_a_process(folder: str) -> None:
    program = build(folder)
    feed = Feed(folder, "--json", "a.json")
    feed.begin()
    for segment in (2, 1):
        parts = of_program(program, [mismatch(program.places, after=segment)], (), findings=1, segment=segment)
        feed.process(0, CLEAN, parts, findings=2, reports=0, segment=segment, segments=2)
    expect_in(feed.end().out, "(2 times, 1 process)",
              "2 reports at 1 place; 1 process")
    found = next(it for it in map(json.loads, text_of(folder, "a.json").splitlines()) if it["type"] == "finding")
    expect((found.get("segment"), found["after"]), (None, 1), "the first of them")


def titles_in(text: str) -> List[str]:
    """The words of each report that tell those of `at_once` apart."""
    return re.findall(r"^==\d+==ERROR: asancol: .*(overlap|malloc vs|more than a size|heap-use-after-free)", text, re.M)


def at_once(places: Dict[str, int]) -> List[bytes]:
    """Three that came up between the same two events."""
    return [finding(OVERLAP, places["use"], 0x2000, 16, places["make"], "memcpy", given=(0x2004, 8), other=0x2000,
                    after=5),
            mismatch(places, after=5), finding(PRODUCT, places["use"], call="pvalloc", given=(0, MINUS_FIVE), after=5)]


AT_ONCE = ["overlap", "malloc vs", "more than a size"]


@report_test
def order_of_time(folder: str) -> None:
    """What came up between two events stands as it came up: also if it is read again, and beside other results."""
    program = build(folder)
    freed = freed_block(program)
    for name, step in (("a", 1), ("b", -1)):
        found = at_once(program.places)[::step]
        parts = of_program(program, [found[0], freed, *found[1:]], [0, 0, 0, 0, 2], findings=3)
        write_trace(folder, f"{name}.trace", FREED + END, parts)
        wanted = ["heap-use-after-free", *AT_ONCE[::step]]
        ran = report(folder, "--trace", f"{name}.trace", "--json", f"{name}.json")
        expect(titles_in(ran.out), wanted, ran.out)
        expect(titles_in(report(folder, f"{name}.json").out), wanted, "read again")
    for first, second, step in (("a", "b", 1), ("b", "a", -1)):
        ran = report(folder, f"{first}.json", f"{second}.json", "--json", "c.json")
        expect(titles_in(ran.out), ["heap-use-after-free", *AT_ONCE[::step]], "merged")
        expect(report(folder, "c.json").out, ran.out, "merged, and read again")
    text = re.sub(r'"number":[1-3],"', '"', text_of(folder, "b.json"))
    with open(f"{folder}/older.json", "w", encoding="utf-8") as file:
        file.write(text)
    expect_not_in(text, '"number"')
    ran = report(folder, "older.json")
    expect((ran.status, len(titles_in(ran.out))), (1, 4), "a result without their order")


@report_test
def order_of_processes(folder: str) -> None:
    """Those of an earlier process come first, if it ends later too."""
    program = build(folder)
    found = at_once(program.places)
    feed = Feed(folder)
    feed.begin()
    for number, those in ((1, found[1:2]), (0, found)):
        feed.process(number, CLEAN, of_program(program, those, (), findings=len(those)), findings=len(those), reports=0)
    ran = feed.end()
    expect(titles_in(ran.out), AT_ONCE, ran.out)


def leaking(folder: str, name: str, *lost: Tuple[int, int]) -> None:
    """Leaves the result of a run in which each process has lost this many bytes in this many blocks at one place, and
    half of them at another."""
    program = build(folder)
    feed = Feed(folder, "--leaks=yes", "--json", f"{name}.json")
    feed.begin(name)
    for number, (size, blocks) in enumerate(lost):
        leaks = [finding(LEAK, program.places["make"], given=(0, size), count=blocks),
                 finding(INDIRECT, program.places["use"], given=(0, size // 2), count=blocks)]
        feed.process(number, CLEAN, of_program(program, leaks, (), findings=2), findings=2, reports=0)
    feed.end()


def leaks_in(text: str) -> List[str]:
    return re.findall(r"memory leaks ?(.*)\n(.*) allocated from:$", text, re.M)


@report_test
def leaks_of_runs(folder: str) -> None:
    """A place of leaks has what all processes have lost there, in one run as in several."""
    leaking(folder, "all", (24, 3), (40, 1), (8, 2))
    leaking(folder, "one", (24, 3))
    leaking(folder, "two", (40, 1), (8, 2))
    wanted = [("(3 times, 3 processes)", "Direct leak of 72 byte(s) in 6 object(s)"),
              ("(3 times, 3 processes)", "Indirect leak of 36 byte(s) in 6 object(s)")]
    for names in (["all"], ["all", "all"], ["one", "two"], ["two", "one", "two"]):
        ran = report(folder, *(f"{it}.json" for it in names), "--json", "again.json", "--html=page", "--sarif=sarif")
        expect(leaks_in(ran.out), wanted, str(names))
        for kind in ("page", "sarif"):
            expect_in(text_of(folder, kind), "Direct leak of 72 byte(s) in 6 object(s)")
        ran = report(folder, "again.json", f"{names[0]}.json")
        expect(leaks_in(ran.out), wanted, f"{names}, and read again")
    found = [it for it in map(json.loads, text_of(folder, "again.json").splitlines()) if it["type"] == "finding"]
    expect([(it["run"], it["size"], it["blocks"], it["said"]) for it in found if it["class"] == "leak"],
           [(0, 48, 3, "Direct leak of 48 byte(s) in 3 object(s)"),
            (1, 24, 3, "Direct leak of 24 byte(s) in 3 object(s)")], "what each run has")
    with open(f"{folder}/older.json", "w", encoding="utf-8") as file:
        file.write(re.sub(r',"blocks":\d+', "", text_of(folder, "again.json")))
    ran = report(folder, "older.json")
    expect([it[1] for it in leaks_in(ran.out)], [f"{it} leak of {size} byte(s) in 3 object(s)" for it, size in
                                                 (("Direct", 48), ("Indirect", 24))], "without their number")


@report_test
def leaks_through_one_function(folder: str) -> None:
    """Leaks that one function has allocated for several callers are apart: in reports, results and suppressions."""
    program = build(folder)
    places, make = program.places, program.places["make"]
    lost = [finding(kind, make, given=(0, size), count=1, stack=stack)
            for kind, size, stack in ((LEAK, 24, 1), (LEAK, 40, 4), (INDIRECT, 8, 4), (LEAK, 7, 0))]
    stacks = [0, 2, make, places["use"], 2, make, places["drop"]]
    parts = of_program(program, lost, (), findings=len(lost), stacks=stacks)
    write_trace(folder, "a.trace", CLEAN, parts)
    ran = report(folder, "--trace", "a.trace", "--leaks=yes", "--json", "a.jsonl")
    wanted = [("", f"{kind} leak of {size} byte(s) in 1 object(s)")
              for kind, size in (("Direct", 24), ("Direct", 40), ("Indirect", 8), ("Direct", 7))]
    expect(leaks_in(ran.out), wanted, "of a trace")
    write_text(f"{folder}/b.jsonl", re.sub(r'"id":"[^"]*"', '"id":"b"', text_of(folder, "a.jsonl")))
    twice = [("(2 times, 2 processes)", f"{kind} leak of {2 * size} byte(s) in 2 object(s)")
             for kind, size in (("Direct", 24), ("Direct", 40), ("Indirect", 8), ("Direct", 7))]
    expect(leaks_in(report(folder, "a.jsonl", "b.jsonl").out), twice, "of two results")
    cases: Dict[str, List[int]] = {"leak:^use$": [1, 2, 3], "leak:^drop$": [0, 3], "leak:^make$": []}
    for rule, left in cases.items():
        write_text(f"{folder}/rules", f"{rule}\n")
        for inputs in (["--trace", "a.trace", "--leaks=yes"], ["a.jsonl"]):
            ran = report(folder, *inputs, "--suppressions=rules")
            expect(leaks_in(ran.out), [wanted[it] for it in left], f"{rule} {inputs}")


@report_test
def what_is_no_finding(folder: str) -> None:
    """Entries that are not whole, of kinds that nobody knows, and all of another release."""
    program = build(folder)
    unknown = finding(layout.FINDING_LAST + 1, program.places["drop"])
    found = [mismatch(program.places, count=0), unknown, freed_block(program)]
    write_trace(folder, "a.trace", OVERFLOW + END, of_program(program, found, [0, 3], findings=2))
    ran = report(folder, "--trace", "a.trace")
    expect_in(ran.out, "1 report at 1 place; 1 process", "in use ")
    expect_not_in(ran.out, "recorder")
    write_trace(folder, "c.trace", OVERFLOW + END, of_program(program, [freed_block(program)], [0, 1],
                                                             header=b"ASWH\4\0\0\0"))
    expect_not_in(report(folder, "--trace", "c.trace").out, "in use ")
    write_trace(folder, "d.trace", CLEAN, of_program(program, [], (), findings_lost=3))
    expect_in(report(folder, "--trace", "d.trace").out,
              "INCOMPLETE: its recorder had no room for 3 of its findings")
