"""The test in which a report came up, as the process said it: in each form of report."""

import json
import struct
import xml.dom.minidom
from typing import List, Sequence

from testing import expect, expect_in, expect_not_in
from testing.reports import END, FREED, Feed, build, freed_block, report, report_test
from testing.side import SIGNAL, Parts, of_program


def words_of(texts: Sequence[str]) -> List[int]:
    """Returns texts among the stacks: each with how long it is before it. The first word is of none."""
    words = [0]
    for text in texts:
        room = text.encode().ljust((len(text) + 7) // 8 * 8, b"\0")
        words += [len(text), *struct.unpack(f"<{len(room) // 8}Q", room)]
    return words


def parts_of(folder: str, *tests: str) -> Parts:
    """Side memory with a fault in each of these tests; an empty name: in none."""
    program = build(folder)
    at = [len(words_of(tests[:number])) if test else 0 for number, test in enumerate(tests)]
    faults = [freed_block(program, test=it) for it in at]
    return of_program(program, faults, [0, 0, 0, 0, *range(1, len(faults) + 1)], stacks=words_of(tests))


def feed_of(folder: str, *tests: str, **more: object) -> None:
    """A run with a process that has a report at one place, once in each of these tests."""
    feed = Feed(folder, "--json", "a.jsonl")
    feed.begin()
    lines = "".join(FREED.replace("#5", f"#{5 + number}") for number in range(len(tests)))
    feed.process(0, lines + END, parts_of(folder, *tests), command=["./tests"], **more)
    feed.end()


@report_test
def a_test_is_named(folder: str) -> None:
    feed_of(folder, "Parse.Overflows<1>", "Parse.Overflows<1>")
    for again in ("a.jsonl", "b.jsonl"):
        ran = report(folder, again, "--json", "b.jsonl", "--html", "a.html", "--sarif", "a.sarif")
        expect_in(ran.out, " (2 times, 1 process)\n  in test Parse.Overflows<1>\n    #0 ")
        with open(f"{folder}/a.html", encoding="utf-8") as file:
            expect_in(file.read(), '<span class="near">in test Parse.Overflows&lt;1&gt;</span>')
        with open(f"{folder}/a.sarif", encoding="utf-8") as file:
            text = json.load(file)["runs"][0]["results"][0]["message"]["text"]
        expect_in(text, "byte 0 of a freed block of 16 bytes, in test Parse.Overflows<1>")
        with open(f"{folder}/b.jsonl", encoding="utf-8") as file:
            found = [it for it in map(json.loads, file) if it["type"] == "finding"]
        expect([it["tests"] for it in found], [["Parse.Overflows<1>"]], "JSON")
    feed_of(folder, "")
    expect_not_in(report(folder, "a.jsonl").out, "in test")


@report_test
def many_tests_are_named(folder: str) -> None:
    for tests, said in ((["a", "b"], "in tests a and b\n"), (["a", "b", "c"], "in tests a, b and c\n"),
                        (["a", "b", "c", "d", "e", ""], "in tests a, b, c and 2 more\n")):
        feed_of(folder, *tests)
        expect_in(report(folder, "a.jsonl").out, f"({len(tests)} times, 1 process)\n  {said}")


@report_test
def junit_has_a_case_for_each_test(folder: str) -> None:
    """And none of these is in the case of the command."""
    feed_of(folder, "a", "b")
    for number in range(2):
        report(folder, "a.jsonl", "--junit", "out.xml")
        cases = xml.dom.minidom.parse(f"{folder}/out.xml").getElementsByTagName("testcase")
        expect([it.getAttribute("name") for it in cases], ["make check", "make check: a", "make check: b"], "names")
        expect([[each.tagName for each in it.childNodes] for it in cases], [[], ["failure"], ["failure"]], "outcomes")
        expect_in(cases[1].firstChild.firstChild.data, "==100==ERROR: asancol: heap-use-after-free", "  100 ./tests\n")
    feed_of(folder, "a", whole=False, why="its recording ended early")
    report(folder, "a.jsonl", "--junit", "out.xml")
    cases = xml.dom.minidom.parse(f"{folder}/out.xml").getElementsByTagName("testcase")
    expect([[each.tagName for each in it.childNodes] for it in cases], [["error"], ["failure"]], "incomplete")


@report_test
def the_test_of_a_crash_is_named(folder: str) -> None:
    program = build(folder)
    parts = of_program(program, [], [], ending=SIGNAL, signal=11, stacks=words_of(["Parse.Crashes"]), last_test=1)
    parts.append((4072, struct.pack("<QQII", program.places["use"], 0x10, 0, 1)))
    feed = Feed(folder, "--json", "a.jsonl")
    feed.begin()
    feed.process(0, END, parts, command=["./tests"], signal=11)
    feed.end(status=139)
    for again in ("a.jsonl", "b.jsonl"):
        said = report(folder, again, "--json", "b.jsonl", "--junit", "out.xml").out
        expect_in(said, "ended by SIGSEGV, at address 0x10\n  in test Parse.Crashes\n    #0 ")
        cases = xml.dom.minidom.parse(f"{folder}/out.xml").getElementsByTagName("testcase")
        expect([it.getAttribute("name") for it in cases][1:], ["make check: Parse.Crashes"], "names")
