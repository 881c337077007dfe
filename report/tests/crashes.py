"""Crashes: a process that a signal has ended has a place in every output, and is never green."""

import json
import os
import re
import xml.dom.minidom
from typing import Any, Dict, List

from asancol_report import side as layout
from asancol_report.asan_text import WILD_HINT
from testing import expect, expect_in, expect_not_in
from testing.reports import END, FREED, Feed, build, freed_block, report, report_test
from testing.side import SIGNAL, Parts, Program, of_program

NO_REPORTS = END.replace("reports 1", "reports 0")


def crashed(program: Program, place: str, address: int = 0x10, how: int = layout.HAS_ADDRESS) -> Parts:
    parts = of_program(program, [freed_block(program)], [0, 0, 0, 0, 1], ending=SIGNAL, signal=11)
    return [*parts, (layout.LAST_AT, layout.LAST.pack(program.places[place], address, 0, how))]


def feed_crashes(folder: str, *argv: str, reports: str = "") -> Feed:
    """A command that did not mind: of its processes two have crashed at one place, and one at another."""
    program = build(folder)
    feed = Feed(folder, *argv, "--source-root", ".")
    feed.begin()
    died = {"signal": 11, "fate": "no-close", "why": "ended by SIGSEGV"}
    feed.process(0, NO_REPORTS)
    feed.process(1, NO_REPORTS, crashed(program, "use"), **died)
    feed.process(2, NO_REPORTS, crashed(program, "use"), **died)
    feed.process(3, reports + (END if reports else NO_REPORTS), crashed(program, "drop"), **died)
    return feed


def entries(folder: str, *argv: str) -> List[Any]:
    ran = report(folder, "a.jsonl", "--json", "-", *argv)
    return [json.loads(line) for line in ran.out.splitlines() if line.startswith("{")]


def test_case(folder: str, *argv: str) -> Any:
    report(folder, "a.jsonl", "--junit", "out.xml", "--source-root", ".", *argv)
    return xml.dom.minidom.parse(f"{folder}/out.xml").getElementsByTagName("testcase")[0]


@report_test
def crash_is_in_every_output(folder: str) -> None:
    ran = feed_crashes(folder, "--json", "a.jsonl").end()
    expect(ran.status, 0, ran.out)
    expect_in(ran.out, "asancol: 2 processes (101, 102) ./program: ended by SIGSEGV, at address 0x10\n    #0 0x",
              "asancol: no reports; 4 processes, 36 events; all complete, 3 crashed\n")
    (failure,) = test_case(folder).getElementsByTagName("failure")
    expect(failure.getAttribute("type"), "SEGV", "type")
    expect_in(failure.getAttribute("message"), "SEGV: ended by SIGSEGV, at address 0x10 in use program.c:7")
    expect_in(failure.firstChild.data, "2 processes (101, 102) ./program: ended by SIGSEGV", "in use program.c:7",
              "in drop")
    document = json.loads(report(folder, "a.jsonl", "--sarif", "-", "--source-root", ".").out)
    first, second = document["runs"][0]["results"]
    expect((first["ruleId"], first["occurrenceCount"], second["occurrenceCount"]), ("SEGV", 2, 1), "SARIF")
    expect(first["message"]["text"], "SEGV: ended by SIGSEGV, at address 0x10", "message")
    expect(first["locations"][0]["physicalLocation"]["region"]["startLine"], 7, "line")
    expect_in(document["runs"][0]["tool"]["driver"]["rules"][0]["help"]["text"], "pointer")
    quality = json.loads(report(folder, "a.jsonl", "--codequality", "-", "--source-root", ".").out)
    expect([(it["check_name"], it["location"]["path"]) for it in quality], [("SEGV", "program.c")] * 2, "Code Quality")
    expect(len({it["fingerprint"] for it in quality}), 2, "fingerprints")
    found = [it for it in entries(folder) if it["type"] == "process"]
    expect([it.get("crash") for it in found], [None, "SEGV", "SEGV", "SEGV"], "JSON lines")
    expect(found[1]["fingerprint"] == found[2]["fingerprint"] != found[3]["fingerprint"], True, "fingerprints")
    expect(report(folder, "a.jsonl", "--source-root", ".").out, ran.out, "read again")


@report_test
def crash_says_how_it_came(folder: str) -> None:
    """By a load, a store or a jump, if that is known; or since the stack is used up, which is a class as with
    AddressSanitizer. Rules for SEGV match it, and its fingerprint stays."""
    program = build(folder)
    feed = Feed(folder, "--source-root", ".", "--json", "a.jsonl")
    feed.begin()
    known, near = layout.HAS_ADDRESS, layout.HAS_ADDRESS | layout.BY_STORE | layout.STACK_USED_UP
    for number, how in enumerate((known, known | layout.BY_LOAD, known | layout.BY_STORE, known | layout.BY_JUMP,
                                  near)):
        feed.process(number, NO_REPORTS, crashed(program, "use", how=how), signal=11, fate="no-close",
                     why="ended by SIGSEGV")
    ran = feed.end()
    expect([line.partition("SIGSEGV")[2] for line in ran.out.splitlines() if "ended by" in line],
           [", at address 0x10", ", by a load at address 0x10", ", by a store at address 0x10",
            ", by a jump to address 0x10", ", since its stack is used up"], ran.out)
    found = [it for it in entries(folder) if it["type"] == "process"]
    expect([it["crash"] for it in found], ["SEGV"] * 4 + ["stack-overflow"], "classes")
    expect([it.get("access") for it in found], [None, "load", "store", "jump", "store"], "accesses")
    expect(len({it["fingerprint"] for it in found}), 1, "fingerprints")
    expect(report(folder, "a.jsonl", "--source-root", ".").out, ran.out, "read again")
    for rule, count in (("SEGV:*", 5), ("stack-overflow:*", 1)):
        with open(f"{folder}/rules", "w", encoding="utf-8") as file:
            file.write(rule + "\n")
        ran = report(folder, "a.jsonl", "--suppressions", "rules")
        expect_in(ran.out, f"{count} crash{'es' * (count > 1)} suppressed")


@report_test
def crash_in_the_text_of_asan(folder: str) -> None:
    """As AddressSanitizer says it: a wild pointer has no address there, and a jump goes where the pc is."""
    program = build(folder)
    feed = Feed(folder, "--source-root", ".", "--format=asan")
    feed.begin()
    known = layout.HAS_ADDRESS
    ways = (("use", 0), ("drop", known | layout.BY_STORE), ("make", known | layout.BY_JUMP))
    for number, (place, how) in enumerate(ways):
        feed.process(number, NO_REPORTS, crashed(program, place, how=how), signal=11, fate="no-close",
                     why="ended by SIGSEGV")
    said = [line.partition("==ERROR: AddressSanitizer: ")[2] or line.rpartition("==")[2]
            for line in feed.end().out.splitlines() if line.startswith("==10")]
    said = [re.sub(r"pc 0x(?!0{10}10)\w+ bp .* sp 0x\w+", "pc AT", line) for line in said]
    expect(said, [
        "SEGV on unknown address (pc AT T0)", "The signal is caused by a UNKNOWN memory access.", WILD_HINT, "ABORTING",
        "SEGV on unknown address 0x000000000010 (pc AT T0)", "The signal is caused by a WRITE memory access.",
        "Hint: address points to the zero page.", "ABORTING",
        "SEGV on unknown address 0x000000000010 (pc 0x000000000010 bp 0x7ffffffff000 sp 0x7fffffffeff8 T0)",
        "Hint: pc points to the zero page.", "The signal is caused by a READ memory access.",
        "Hint: address points to the zero page.", "ABORTING"], "what is said")


@report_test
def calls_that_come_again_are_one_line(folder: str) -> None:
    """A recursion that does not end: its calls are lines the first time, also if there are several of them."""
    feed_crashes(folder, "--json", "a.jsonl").end()
    with open(f"{folder}/a.jsonl", encoding="utf-8") as file:
        lines = [json.loads(line) for line in file]
    for calls, shown in (
        ("abbbbbc", ["#0 0xa", "#1 0xb", ".. 4 frames of the same calls", "#6 0xc"]),
        ("abcbcbc", ["#0 0xa", "#1 0xb", "#2 0xc", ".. 4 frames of the same calls"]),
        ("aabbc", ["#0 0xa", "#1 0xa", "#2 0xb", "#3 0xb", "#4 0xc"]),
    ):
        for entry in lines:
            if "stack" in entry:
                entry["stack"] = [{"offset": it, "module": "/opt/program", "build": ""} for it in calls]
        with open(f"{folder}/b.jsonl", "w", encoding="utf-8") as file:
            file.writelines(json.dumps(entry) + "\n" for entry in lines)
        ran = report(folder, "b.jsonl")
        expect([" ".join(it.split()).partition(" (")[0] for it in ran.out.splitlines() if it.startswith("    ")],
               shown, calls)
        expect_not_in(report(folder, "b.jsonl", "--full-stacks").out, "the same calls")


@report_test
def crash_is_suppressed_by_its_class(folder: str) -> None:
    """A rule for reports alone, or for a whole library, is not meant for crashes."""
    feed_crashes(folder, "--json", "a.jsonl").end()
    for rule, says, lines in (
        ("at:SEGV:use@program.c", "all complete, 1 crashed, 2 crashes suppressed", 1),
        ("SEGV:*", "3 crashes suppressed", 0), ("*:*", "3 crashed\n", 2), ("src:program.c", "3 crashed\n", 2),
        ("at:*:use", "3 crashed\n", 2), ("ABRT:*", "3 crashed\n", 2),
    ):
        with open(f"{folder}/rules", "w", encoding="utf-8") as file:
            file.write(rule + "\n")
        ran = report(folder, "a.jsonl", "--suppressions", "rules", "--gen-suppressions")
        expect(ran.status, 0, rule)
        expect_in(ran.out, says)
        expect(ran.out.count("ended by SIGSEGV"), lines, rule)
    with open(f"{folder}/rules", "w", encoding="utf-8") as file:
        file.write("SEGV:*\n")
    expect(report(folder, "a.jsonl", "--suppressions", "rules", "--quiet").out, "", "quiet")
    expect(test_case(folder, "--suppressions", "rules").childNodes.length, 0, "a test case that passes")
    document = json.loads(report(folder, "a.jsonl", "--suppressions", "rules", "--sarif", "-").out)
    expect(document["runs"][0]["results"][0]["suppressions"][0]["justification"], "SEGV:*", "SARIF")
    expect(report(folder, "a.jsonl", "--suppressions", "rules", "--codequality", "-").out, "[]\n", "Code Quality")
    expect_in(report(folder, "a.jsonl", "--gen-suppressions").out, "  suppression: at:SEGV:use@")


@report_test
def crash_that_was_waited_for_does_not_count(folder: str) -> None:
    """It is one line in the text, and data in the others. At the place of one that counts it is a place by itself."""
    program = build(folder)
    feed = Feed(folder, "--source-root", ".", "--json", "a.jsonl")
    feed.begin()
    awaited: List[Dict[str, bool]] = [{"awaited": True}, {"awaited": True}, {}]
    for number, fields in enumerate(awaited):
        feed.process(number, NO_REPORTS, crashed(program, "use"), signal=11, fate="no-close", why="ended by SIGSEGV",
                     **fields)
    ran = feed.end()
    line = "asancol: 2 processes whose parents waited for them crashed or halted; --crashes shows them\n"
    expect_in(ran.out, "asancol: process 102 ./program: ended by SIGSEGV", "all complete, 1 crashed\n" + line,
              "SUMMARY: asancol: SEGV")
    expect(report(folder, "a.jsonl", "--source-root", ".").out, ran.out, "read again")
    shown = report(folder, "a.jsonl", "--source-root", ".", "--crashes").out
    expect_in(shown, "asancol: 3 processes (100, 101, 102) ./program: ended by SIGSEGV", "all complete, 3 crashed\n")
    expect_not_in(shown, line)
    document = json.loads(report(folder, "a.jsonl", "--sarif", "-").out)
    found = [("suppressions" in it, it["occurrenceCount"]) for it in document["runs"][0]["results"]]
    expect(found, [(True, 2), (False, 1)], "SARIF")
    expect(len(json.loads(report(folder, "a.jsonl", "--codequality", "-").out)), 1, "Code Quality")
    report(folder, "a.jsonl", "--html", "page")
    with open(f"{folder}/page", encoding="utf-8") as page:
        expect_in(page.read(), "its parent has waited for it, and the command ended with status 0")


@report_test
def halt_that_was_waited_for_does_not_count(folder: str) -> None:
    """Its report counts if another process has it, in this run or in another."""
    program = build(folder)
    halted = {"signal": 6, "fate": "no-close", "why": "ended by SIGABRT", "halted": True}
    line = "asancol: 1 process whose parent waited for it crashed or halted; --crashes shows it\n"

    def ran(name: str, *awaited: bool) -> str:
        feed = Feed(folder, "--json", name)
        feed.begin(name)
        for number, is_awaited in enumerate(awaited):
            parts = of_program(program, [freed_block(program)], [0, 0, 0, 0, 1], ending=SIGNAL, signal=6)
            more = {"awaited": True} if is_awaited else {}
            feed.process(number, FREED + END, parts, **halted, **more)
        return feed.end().out

    out = ran("a", True)
    expect_in(out, "asancol: no reports; 1 process, ", line)
    expect_not_in(out, "ERROR", "SUMMARY")
    expect(report(folder, "a").out, out, "read again")
    expect_in(report(folder, "a", "--crashes").out, "asancol: 1 report at 1 place; 1 process, ")
    expect_in(ran("b", True, False), "(2 times, 2 processes)", "asancol: 2 reports at 1 place; 2 processes, ", line)
    ran("c", False)
    for names in ("a", "c"), ("c", "a"):
        expect_in(report(folder, *names).out, "asancol: 2 reports at 1 place; 2 processes", line)
    document = json.loads(report(folder, "a", "--sarif", "-").out)
    expect(["suppressions" in it for it in document["runs"][0]["results"]], [True], "SARIF")
    expect(report(folder, "a", "--codequality", "-").out, "[]\n", "Code Quality")


@report_test
def crash_is_known_from_a_baseline(folder: str) -> None:
    feed_crashes(folder, "--json", "a.jsonl").end()
    ran = report(folder, "a.jsonl", "--baseline", "a.jsonl")
    expect_in(ran.out, "asancol: no reports; 4 processes, 36 events; ",
              "all complete, 3 crashes known from the baseline\n")
    found = [it.get("baseline") for it in entries(folder, "--baseline", "a.jsonl")[1:]]
    expect(found, [None, *["unchanged"] * 3], "JSON lines")
    # An earlier release has no fingerprints of crashes. All that it says is read, and the crash counts.
    with open(f"{folder}/old.jsonl", "w", encoding="utf-8") as file:
        for entry in entries(folder):
            file.write(json.dumps({key: it for key, it in entry.items() if key not in ("crash", "fingerprint")}) + "\n")
    expect_in(report(folder, "a.jsonl", "--baseline", "old.jsonl").out, "3 crashed\n")
    wanted = [it.get("fingerprint") for it in entries(folder)]
    os.rename(f"{folder}/old.jsonl", f"{folder}/a.jsonl")
    expect([it.get("fingerprint") for it in entries(folder, "--source-root", ".")], wanted, "those of an old result")


@report_test
def crash_after_a_report_says_so(folder: str) -> None:
    ran = feed_crashes(folder, "--json", "a.jsonl", reports=FREED).end()
    expect(ran.status, 1, ran.out)
    expect_in(ran.out, "1 report at 1 place; 4 processes, 36 events; all complete, 3 crashed\n")
    document = json.loads(report(folder, "a.jsonl", "--sarif", "-").out)
    expect([it["message"]["text"].partition(",")[2] for it in document["runs"][0]["results"]],
           [" byte 0 of a freed block of 16 bytes", " at address 0x10"], "messages")
    with open(f"{folder}/a.jsonl", encoding="utf-8") as file:
        follows = [it.get("follows") for it in map(json.loads, file) if it["type"] == "process"]
    expect(sum(it is not None for it in follows), 1, "the crash after a report")
    (failure,) = test_case(folder).getElementsByTagName("failure")
    expect(failure.getAttribute("type"), "heap-use-after-free", "the report comes first")
    expect_in(failure.firstChild.data, "ERROR: asancol: heap-use-after-free", "ended by SIGSEGV")


@report_test
def crash_has_no_place(folder: str) -> None:
    """Nobody saw where it was: it is named by its program, and has a location in SARIF all the same."""
    feed = Feed(folder, "--json", "a.jsonl")
    feed.begin()
    feed.process(0, signal=11, fate="no-close", abrupt=True, why="ended abruptly, by SIGSEGV", command=["sub/program"])
    feed.process(1, signal=6, fate="no-close", abrupt=True, why="ended abruptly, by SIGABRT", command=["sub/other"])
    expect_in(feed.end().out, "2 ended abruptly, 2 crashed\n")
    (run,) = json.loads(report(folder, "a.jsonl", "--sarif", "-", "--source-root", "/tmp").out)["runs"]
    expect([it["locations"][0]["physicalLocation"]["artifactLocation"]["uri"] for it in run["results"]],
           ["sub/program", "sub/other"], "locations")
    quality = json.loads(report(folder, "a.jsonl", "--codequality", "-", "--source-root", "/tmp").out)
    expect([it["location"]["path"] for it in quality], ["sub/program", "sub/other"], "paths")
    expect_in(report(folder, "a.jsonl", "--junit", "-", "--source-root", "/tmp").out,
              'message="SEGV: ended by SIGSEGV in sub/program">', 'message="ABRT: ended by SIGABRT in sub/other">')
    expect_not_in(report(folder, "a.jsonl", "--gen-suppressions").out, "suppression: \n")


@report_test
def crash_of_a_library_is_its_callers(folder: str) -> None:
    """A library of the system stands for nothing, even if it has lines: what has called it does."""
    feed_crashes(folder, "--json", "a.jsonl").end()
    with open(f"{folder}/a.jsonl", encoding="utf-8") as file:
        lines = [json.loads(line) for line in file]
    for entry in lines:
        if "stack" in entry:
            entry["stack"].insert(0, {"offset": "12", "module": "/lib/x86_64-linux-gnu/libc.so.6", "function": "raise",
                                      "file": "sysdeps/raise.c", "line": 26})
            del entry["fingerprint"]
    with open(f"{folder}/a.jsonl", "w", encoding="utf-8") as file:
        file.writelines(json.dumps(entry) + "\n" for entry in lines)
    document = json.loads(report(folder, "a.jsonl", "--sarif", "-", "--source-root", ".").out)
    first = document["runs"][0]["results"][0]
    outer = first["locations"][0]["physicalLocation"]["artifactLocation"]
    expect(outer, {"uri": "program.c", "uriBaseId": "SRCROOT"}, "the place")
    inner = first["stacks"][0]["frames"][0]["location"]["physicalLocation"]["artifactLocation"]
    expect(inner, {"uri": "sysdeps/raise.c"}, "a file of the system is in no folder of the program")
