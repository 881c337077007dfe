"""The order of reports: a cause stands before what came of it, and reports on one block or variable stand together."""

import json
import re
from typing import List

from asancol_report.side import IS_PIECE
from testing import expect, expect_in, expect_not_in
from testing.reports import Feed, build, report, report_test, write_trace
from testing.side import Parts, Program, fault, of_program

END = "p0 end closed events 99 offset 999 reports 4\n"
CLASSES = {"05": "heap-buffer-overflow", "fd": "heap-use-after-free"}


def line(event: int, shadow: str, address: int = 0x2000, kind: str = "load") -> str:
    return f"p0 #{event} {kind} 4 at {address:012x} bad {address:012x} {CLASSES[shadow]} shadow {shadow}\n"


def parts_of(program: Program) -> Parts:
    """The cause is a store past a block in `use`, event 3. Then come loads from a block that was freed: 4 in `make`, 6
    in `drop`, 8, from another one, by the calls of the cause."""
    places = program.places
    one = [fault(places["use"], 0x1000, 8, places["make"])]
    block = 0x2000, 16, places["make"], places["drop"]
    return of_program(program, one + [fault(places[name], *block) for name in ("make", "drop")]
                      + [fault(places["use"], 0x2020, 16, places["make"], places["drop"])],
                      [0, 0, 1, 2, 0, 3, 0, 4])


LINES = line(3, "05", 0x1008, "store") + line(4, "fd") + line(6, "fd") + line(6, "fd") + line(8, "fd", 0x2020)


def heads(text: str) -> List[str]:
    return re.findall(r"ERROR: asancol: ([a-z-]+: \w+)", text)


@report_test
def causes_come_first(folder: str) -> None:
    """Neither class nor file nor line decides, but the event that came first."""
    program = build(folder)
    for early, late in ((3, 4), (4, 3)):
        index = [0, 0, 0, 0]
        index[early - 1], index[late - 1] = 1, 2
        faults = [fault(program.places["use"], 0x2000, 16, program.places["make"], program.places["drop"]),
                  fault(program.places["make"], 0x1000, 8, program.places["make"])]
        write_trace(folder, "a.trace", "".join(sorted([line(early, "fd"), line(late, "05", 0x1008)],
                                                      key=str.split)) + END,
                    of_program(program, faults, index))
        ran = report(folder, "--trace", "a.trace", "--json", "a.jsonl")
        wanted = ["heap-use-after-free: load", "heap-buffer-overflow: load"]
        expect(heads(ran.out), wanted if early < late else wanted[::-1], f"{early} before {late}")
        expect(report(folder, "a.jsonl").out, ran.out, "read again")


@report_test
def processes_and_runs_are_in_order(folder: str) -> None:
    """The first process is that with the lowest number, whichever ends first; and runs stand as they were named."""
    program = build(folder)
    faults = [fault(program.places[name], 0x2000 - 64 + 8 * at, 64) for at, name in enumerate(("use", "make", "drop"))]
    parts = of_program(program, faults, [0, 1, 2, 3])
    feed = Feed(folder, "--json", "1.jsonl")
    feed.begin("run-1")
    feed.process(2, line(2, "05") + END, parts)
    feed.process(1, line(4, "05") + line(3, "05") + END, parts)
    ran = feed.end()
    expect(re.findall(r"^==(\d+)==.*\n    #0 \S+ in (\w+)", ran.out, re.M),
           [("101", "make"), ("101", "drop"), ("102", "use")], ran.out)
    feed = Feed(folder, "--json", "2.jsonl")
    feed.begin("run-2")
    feed.process(0, line(2, "fd") + END, parts)
    feed.end()
    expect(heads(report(folder, "2.jsonl", "1.jsonl").out)[0], "heap-use-after-free: load", "the second run first")
    expect(heads(report(folder, "1.jsonl", "2.jsonl").out)[3], "heap-use-after-free: load", "the second run last")


@report_test
def one_block_is_one_entry(folder: str) -> None:
    program = build(folder)
    write_trace(folder, "a.trace", LINES + END, parts_of(program))
    ran = report(folder, "--trace", "a.trace", "--source-root", ".", "--json", "a.jsonl", "--junit", "a.xml")
    expect(heads(ran.out), ["heap-buffer-overflow: store", "heap-use-after-free: load"], ran.out)
    expect_in(ran.out, "\n  1 later report of this process may follow from this; --all-places shows it\n")
    whole = report(folder, "a.jsonl", "--all-places").out
    expect((heads(whole)[2:], "later report" in whole), (["heap-use-after-free: load"], False), "another block")
    entry = ran.out.partition("heap-use-after-free")[2].partition("==ERROR")[0]
    expect_in(entry, "#0 ", "in make program.c:10", "freed at")
    expect(re.findall(r"^  also at (program\.c:14(?::\d+)? in drop: load of 4 bytes, byte 0 of the block \(2 times\))$",
                      entry, re.M) != [], True,
           entry)
    expect(ran.out.count("also at"), 1, "another block")
    expect_in(ran.out, "asancol: 5 reports at 4 places;")
    expect(report(folder, "a.jsonl", "--source-root", ".").out, ran.out, "read again")
    with open(f"{folder}/a.jsonl", encoding="utf-8") as file:
        found = [it for it in map(json.loads, file) if it["type"] == "finding"]
    expect([it.get("follows") for it in found], [None, None, found[1]["fingerprint"], found[0]["fingerprint"]],
           "what each follows")
    with open(f"{folder}/a.xml", encoding="utf-8") as file:
        expect(heads(file.read()), heads(ran.out), "JUnit")


@report_test
def an_entry_says_where_each_byte_is(folder: str) -> None:
    """Before the variable, in it, and behind it."""
    program = build(folder)
    places = [program.places[name] for name in ("use", "make", "drop")]
    bytes_at = [0x1ffc, 0x2004, 0x2011]
    text = "".join(line(at, "05", it, "store") for at, it in enumerate(bytes_at, 1)) + END
    for variable, name, whose in ((1, "room", "'room'"), (2, "*.LC1", "'<string literal>'"), (3, "", "the array"),
                                  (0, "", "the block")):
        faults = [fault(it, 0x2000, 16, variable=variable, name=name) for it in places]
        write_trace(folder, "a.trace", text, of_program(program, faults, [1, 2, 3]))
        ran = report(folder, "--trace", "a.trace", "--source-root", ".")
        found = re.findall(r"^  also at \S+ in (\w+): store of \d bytes?, (.*)$", ran.out, re.M)
        expect_in(ran.out, "0x1ffc is 4 bytes before ")
        expect(found, [("make", f"byte 4 of {whose}"), ("drop", f"1 byte past the end of {whose}")], ran.out)


@report_test
def a_consequence_stands_by_itself(folder: str) -> None:
    """If what it follows is suppressed or known, nothing hides it."""
    program = build(folder)
    write_trace(folder, "a.trace", LINES + END, parts_of(program))
    report(folder, "--trace", "a.trace", "--json", "a.jsonl")
    with open(f"{folder}/a.jsonl", encoding="utf-8") as file:
        lines = file.read().splitlines(True)
    with open(f"{folder}/known.jsonl", "w", encoding="utf-8") as file:
        file.writelines(it for it in lines if json.loads(it)["type"] != "finding" or json.loads(it)["event"] == 4)
    with open(f"{folder}/rules", "w", encoding="utf-8") as file:
        file.write("at:*:make@program.c\n")
    for argv in (["--suppressions", "rules"], ["--baseline", "known.jsonl"]):
        ran = report(folder, "a.jsonl", *argv)
        expect(ran.status, 1, str(argv))
        expect(len(heads(ran.out)), 2, ran.out)
        expect_in(ran.out, "==ERROR: asancol: heap-use-after-free: load of 4 bytes (2 times, 1 process)\n")
        expect_not_in(ran.out, "also at")


@report_test
def live_reports_are_in_order(folder: str) -> None:
    program = build(folder)
    feed = Feed(folder, "--live=exit", "--source-root", ".")
    feed.begin()
    feed.process(0, LINES + END, parts_of(program))
    ran = feed.end()
    expect(heads(ran.out), ["heap-buffer-overflow: store", "heap-use-after-free: load"], ran.out)
    expect(ran.out.count("  also at program.c:14"), 2, "once with the count at the end")


@report_test
def pieces_are_one_report(folder: str) -> None:
    """Lines of further pieces are no reports, whatever their widths and classes are. Alone, in a segment after that of
    the first piece or where nobody reports that one, they are one."""
    program = build(folder)
    fill = fault(program.places["use"], 0x1000, 5, program.places["make"], access=(0x1000, 13), call="memset")
    pieces = [line(n, shadow, 0x1000 + at, "store").replace("store 4", f"store {width}")
              for n, shadow, at, width in ((1, "05", 4, 4), (2, "fd", 8, 4), (3, "05", 12, 1), (4, "05", 4, 4))]
    for index, lines, count in (([1, IS_PIECE | 1, IS_PIECE | 1, 1], pieces, 2), ([IS_PIECE | 1] * 4, pieces, 1),
                                ([1, IS_PIECE | 1, IS_PIECE | 1, 1], pieces[1:3], 1)):
        write_trace(folder, "a.trace", "".join(lines) + END, of_program(program, [fill], index))
        ran = report(folder, "--trace", "a.trace", "--json", "a.jsonl")
        expect_in(ran.out, f"{count} report{'s' * (count > 1)} at 1 place")
        expect_in(ran.out, "store of 13 bytes")
        found = [it for it in map(json.loads, open(f"{folder}/a.jsonl")) if it["type"] == "finding"]
        expect([(it["count"], it["size"], it["address"]) for it in found], [(count, 13, "1000")], index)
