"""Tests of asancol-report, with side memories and verdicts that are written here."""

import functools
import json
import os
import random
import re
import shutil
import signal
import time
import xml.dom.minidom
from typing import Any, Dict, List, Optional, Tuple

from testing import NO_SETTINGS, expect, expect_in, expect_not_in, leave_out, reports, wait_until
from testing.programs import Started
from testing.reports import END, FREED, OVERFLOW, Feed, build, freed_block, one_trace, report, report_test, write_trace
from testing.side import SIGNAL, fault, of_program, side

WANTED_TEXT = """\
==7==ERROR: asancol: heap-buffer-overflow: store of 1 byte
    #0 AT in drop program.c:14
       14 | here("drop");
  0x2005 is 0 bytes past the end of a block of 5 bytes
  allocated at
    #0 AT in make program.c:10
  hint: Compare the index or length at the access with the size given to the allocation: often an
    element or the final zero byte has no room.

==7==ERROR: asancol: heap-use-after-free: load of 4 bytes (3 times, 1 process)
    #0 AT in use program.c:7 (inlined)
        7 | here("use"); /* <b>&"quoted"</b> */
    #1 AT in main program.c:18
  0x2000 is byte 0 of a freed block of 16 bytes
  allocated at
    #0 AT in make program.c:10
  freed at
    #0 AT in drop program.c:14
  hint: Compare the stack of the free with that of the access: either the block was freed too early,
    or the pointer at the access was kept too long.

asancol: 4 reports at 2 places; 1 process, 9 events; all complete
SUMMARY: asancol: heap-buffer-overflow program.c:14 in drop
"""


def without_columns(text: str) -> str:
    text = re.sub(r"^ +\| *\^\n", "", text, flags=re.M)
    return re.sub(r"(program\.c:\d+)(:\d+)?", r"\1", re.sub(r"#(\d) 0x[0-9a-f]+", r"#\1 AT", text))


@report_test
def trace_has_lines(folder: str) -> None:
    one_trace(folder)
    for tool in ("", "llvm-symbolizer", "addr2line"):
        if tool and not shutil.which(tool):
            leave_out(f"{tool} is not there")
            continue
        ran = report(folder, "--trace", "a.trace", "--source-root", ".", ASANCOL_SYMBOLIZER=tool)
        expect((ran.status, ran.err), (1, ""), "status")
        expect(without_columns(ran.out), WANTED_TEXT, tool)


@report_test
def trace_without_side_file(folder: str) -> None:
    write_trace(folder, "b.trace", FREED + END)
    ran = report(folder, "--trace", "b.trace")
    expect(ran.status, 1, "status")
    expect_in(ran.out, "heap-use-after-free: load of 4 bytes", "#0 its place was not recorded", "address 0x2000",
              "b.trace.where: No such file or directory: record with ASANCOL_WHERE=1")
    for head, size, why in (
        (b"ASWH\2\0\0\0", 1 << 18, "was recorded by another release: read it with that one"),
        (b"", 0, "is cut after 0 bytes, as on a full disk"),
        (b"ASWH\5\0\0\0", 8, "is cut after 8 bytes, as on a full disk"),
        (b"\x7fELF", 1 << 18, "is not a side file: record with"),
        (b"ASWH\4\0\0\0", 1 << 18, "was recorded by another release"),
        (b"ASWH\5\0\0\0", 1 << 18, ""),
    ):
        write_trace(folder, "c.trace", FREED + END, [(0, head)])
        os.truncate(f"{folder}/c.trace.where", size)
        out = report(folder, "--trace", "c.trace").out
        expect(out.partition("c.trace.where ")[2][:len(why)], why, out)


@report_test
def trace_ends(folder: str) -> None:
    """What an end without a close comes to."""
    for fate, parts, status, text in (
        ("no-close", side(ending=3, signal=6, events=9), 0, "all complete"),
        ("no-close", side(ending=2, events=9), 0, "all complete"),
        ("no-close", side(ending=1, events=8, needed=10), 0, "all complete"),
        ("no-close", side(ending=1, events=10), 3, "INCOMPLETE: its trace ended as no-close"),
        ("no-close", side(ending=1, events=9, needed=11), 3, "it ended: its last events were not seen, at least 1"),
        ("no-close", side(ending=1, events=9, noted=1), 3, "it ended: a bad access or free was not recorded before"),
        ("closed", side(events=9, noted=1), 3, "it ended: a bad access or free was not recorded before"),
        ("closed", side(events=9, is_at_limit=True), 3, "reached the event limit, and was not seen to end"),
        ("no-close", side(ending=3, signal=6, events=9, has_begun=0), 3,
         "INCOMPLETE: ended by SIGABRT before main"),
        ("closed", side(events=9, has_checks=0), 3, "INCOMPLETE: none of its code was compiled by asancol-cc"),
        ("closed", side(events=9, starts=1), 3, "ended in a system call of the recorder, or before an exec"),
        ("no-close", side(ending=0, needed=9), 3, "INCOMPLETE: its trace ended as no-close"),
        ("closed", side(events=9, quarantine=5), 0, "held back 5 bytes of freed memory (ASANCOL_QUARANTINE)"),
        ("closed", side(events=9, used_again=1234567890), 0, "all complete\nasancol: process 7 ./program: reused "
         "freed memory after 1.2 GB of blocks, so later uses after free may be missed\n"),
        ("no-close", side(ending=3, signal=6, events=10), 3, "INCOMPLETE: its trace ended as no-close"),
        ("no-close", side(ending=4, events=9), 3, "INCOMPLETE: its recording ended early"),
        ("too-many", side(left_out=21, events=9), 3, "reached the event limit: 21 of 30 events were not recorded"),
        ("malformed code", side(), 3,
         "asancol: process 7 ./program: INCOMPLETE: its trace ended as malformed code"),
    ):
        write_trace(folder, "d.trace", f"p0 end {fate} events 9 offset 99 reports 0\n", parts)
        ran = report(folder, "--trace", "d.trace")
        expect(ran.status, status, fate + ran.out)
        expect_in(ran.out, text)


@report_test
def notes_that_are_no_longer_kept(folder: str) -> None:
    """Of a block that was freed long ago the size class is known, or nothing. Each form says so, also read again."""
    program = build(folder)
    note = "freed long ago: its exact size and its stacks are no longer kept"
    for block, size, near in ((0x2000, 16, "0x2000 is byte 0 of a freed block of at most 16 bytes"),
                              (0, 0, "address 0x2000")):
        parts = of_program(program, [fault(program.places["use"], block, size, variable=4)], [1])
        write_trace(folder, "a.trace", FREED.replace("#5", "#1") + END, parts)
        ran = report(folder, "--trace", "a.trace", "--json", "a.jsonl", "--sarif", "a.sarif", "--html", "a.html")
        expect_in(ran.out, f"  {near}\n  {note}\n")
        expect_not_in(ran.out, "allocated at")
        with open(f"{folder}/a.jsonl", encoding="utf-8") as file:
            found, = [it for it in map(json.loads, file) if it["type"] == "finding"]
        expect((found["forgotten"], "allocated" in found, "block" in found), (True, False, block != 0), "the result")
        with open(f"{folder}/a.sarif", encoding="utf-8") as file:
            result, = json.load(file)["runs"][0]["results"]
        expect((result["properties"]["forgotten"], note in result["message"]["text"]), (True, False), "SARIF")
        with open(f"{folder}/a.html", encoding="utf-8") as file:
            expect_in(file.read(), note)
        expect(report(folder, "a.jsonl").out, ran.out, "read again")


@report_test
def memory_that_came_again(folder: str) -> None:
    """It is a field of the process in the result, and a line, also of results that are read again."""
    for name, parts in (("a", side(events=9, used_again=6815744)), ("b", side(events=9))):
        write_trace(folder, f"{name}.trace", "p0 end closed events 9 offset 99 reports 0\n", parts)
        report(folder, "--trace", f"{name}.trace", "--json", f"{name}.jsonl")
    ran = report(folder, "a.jsonl", "b.jsonl", "--json", "both.jsonl", "--html", "page", "--sarif", "out.sarif")
    line = "process 7 ./program: reused freed memory after 6.8 MB of blocks"
    expect((ran.status, ran.out.count(line)), (0, 1), ran.out)
    with open(f"{folder}/both.jsonl", encoding="utf-8") as file:
        processes = [it for it in map(json.loads, file) if it["type"] == "process"]
    expect([it.get("used_again") for it in processes], [6815744, None], "the field")
    for name in ("page", "out.sarif"):
        with open(f"{folder}/{name}", encoding="utf-8") as file:
            expect_in(file.read(), line)
    expect(report(folder, "both.jsonl").out, ran.out, "read again")
    expect(report(folder, "both.jsonl", "-q").out, "", "quiet")


@report_test
def trace_of_a_killed_process(folder: str) -> None:
    """After its last record there are zeros. Another code there, or an end that is known, is a damaged trace."""
    abrupt = "ended abruptly, such as by SIGKILL, or by an _exit or exec in a library, or still running"
    damaged = "its trace ended as malformed code"
    for parts, rest, why in (
        (side(ending=0), bytes(4000), abrupt), (side(ending=0), b"\0\0\1", abrupt), (None, bytes(4000), abrupt),
        (side(ending=0), b"\x09", damaged), (side(ending=0), b"", damaged), (side(ending=1), bytes(4000), damaged),
        (None, b"\x09", damaged), (side(ending=4), bytes(4000), "its recording ended early"),
    ):
        trace = write_trace(folder, "7.trace", "p0 end malformed code events 9 offset 99 reports 0\n", parts)
        with open(trace, "wb") as file:
            file.write(b"\1" * 99 + rest)
        ran = report(folder, "--trace", "7.trace")
        expect(ran.status, 3, ran.out)
        expect_in(ran.out, f": INCOMPLETE: {why}\n")
        for name in os.listdir(folder):
            if name.startswith("7.trace"):
                os.remove(f"{folder}/{name}")


@report_test
def trace_has_any_name(folder: str) -> None:
    for name in ("-", "a:b.trace", "1:2.trace", "b\udcff \n.trace"):
        write_trace(folder, name, FREED + END, side(argv=[]))
        ran = report(folder, "--trace", f"./{name}", "--json", "out.jsonl")
        expect((ran.status, ran.err), (1, ""), name)
        with open(f"{folder}/out.jsonl", encoding="utf-8") as file:
            process = next(it for it in map(json.loads, file) if it["type"] == "process")
        expect((process["command"], process["kept"]), ([f"./{name}"], f"{folder}/{name}"), name)


@report_test
def trace_is_interrupted(folder: str) -> None:
    """Ctrl-C at the terminal ends all that checks a trace."""
    write_trace(folder, "a.trace", FREED + END)
    reports.write_text(f"{folder}/asancol", f"#!/bin/sh\necho $$ > {folder}/checker\nexec sleep 99\n", 0o755)
    started = Started([reports.REPORT, "--trace", "a.trace"], cwd=folder, env=reports.settings_in(folder),
                      start_new_session=True)
    wait_until(lambda: os.path.exists(f"{folder}/checker") and os.path.getsize(f"{folder}/checker") > 0, "a checker")
    os.killpg(started.pid, signal.SIGINT)
    expect(started.wait(), -signal.SIGINT, "status")
    with open(f"{folder}/checker", encoding="utf-8") as file:
        checker = file.read().strip()
    wait_until(lambda: not os.path.exists(f"/proc/{checker}"), "the end of the checker")


@report_test
def trace_has_failures(folder: str) -> None:
    write_trace(folder, "a.trace", FREED + END)
    for argv, settings, text in (
        (["no.trace"], NO_SETTINGS, "no.trace: No such file or directory"),
        (["a.trace"], {"ASANCOL": "/proc/none/asancol"},
         "/proc/none/asancol: the checker is missing"),
        (["a.trace"], {"ASANCOL": "/bin/false"}, "a.trace: its checker printed no verdict, and ended with status 1"),
    ):
        ran = report(folder, "--trace", *argv, **settings)
        expect(ran.status, 4, text)
        expect_in(ran.err, text)
        expect("INCOMPLETE: a.trace" in ran.out, settings.get("ASANCOL") == "/bin/false", ran.out)
    ran = report(folder, "--trace", "a.trace", "a.trace", "./a.trace")
    expect_in(ran.out, "1 report at 1 place; 1 process, 9 events")


@report_test
def variables(folder: str) -> None:
    faults = [
        fault(0x10, 0x2000, 5, variable=1, line=12, name="buffer"),
        fault(0x10, 0x2008, 4, variable=2, name="table /home/me/my project/a.c:9"),
        fault(0x10, 0x2000, 16, variable=1, name="x"),
        fault(0x10, 0x2000, 4, variable=2, name="(anonymous namespace)::count sub/a.cpp:3"),
        fault(0x10, 0x2000, 4, variable=9, name="nothing"),
        fault(0x10, 0x2000, 4, variable=2, name="<string literal> sub/a.c:5"),
        fault(0x10, 0x2000, 4, variable=2, name="own::A<int, (own::E)1>::table sub/a.cpp:6"),
        fault(0x10, 0x2000, 4, variable=2, name="*.LC12"),
    ]
    lines = "".join(OVERFLOW.replace("#2", f"#{n}").replace("heap", word)
                    for n, word in enumerate(("stack", "global", "stack", "global", "heap", "global", "global",
                                              "global"), 1))
    beside = side(faults=faults, index=range(1, len(faults) + 1))
    # The same address is one place, so each is looked at alone.
    for number, text in enumerate((
        "0 bytes past the end of 'buffer' (5 bytes) on the stack, declared in line 12",
        "3 bytes before 'table' (4 bytes), a global variable, declared at /home/me/my project/a.c:9",
        "byte 5 of 'x' (16 bytes) on the stack, whose scope has ended",
        "1 byte past the end of '(anonymous namespace)::count' (4 bytes), a global variable, "
        "declared at sub/a.cpp:3",
        "1 byte past the end of a block of 4 bytes",
        "1 byte past the end of '<string literal>' (4 bytes), a global variable, declared at sub/a.c:5",
        "1 byte past the end of 'own::A<int, (own::E)1>::table' (4 bytes), a global variable, declared at sub/a.cpp:6",
        "1 byte past the end of '<string literal>' (4 bytes), a global variable\n",
    )):
        write_trace(folder, "a.trace", lines.splitlines(True)[number] + END, beside)
        expect_in(report(folder, "--trace", "a.trace").out, "0x2005 is " + text)


@report_test
def run_is_fed(folder: str) -> None:
    program = build(folder)
    parts = of_program(program, [freed_block(program)], [0, 0, 0, 0, 1, 1])
    feed = Feed(folder, "--json", "out.jsonl", "--source-root", ".")
    feed.begin()
    feed.process(0, FREED + FREED.replace("#5", "#6") + END, parts)
    feed.process(1, events=3)
    feed.process(2, FREED + END, parts)
    feed.process(1, events=5, whole=False, left_out=4, why="reached the event limit: 4 of 9 events were not recorded")
    ran = feed.end()
    expect((ran.status, ran.err), (1, ""), ran.out)
    expect_in(ran.out, "==100==ERROR: asancol: heap-use-after-free: load of 4 bytes (3 times, 2 processes)\n",
              "in use program.c:7", "in drop program.c:14",
              "asancol: process 101 ./program: INCOMPLETE: "
              "reached the event limit: 4 of 9 events were not recorded\n"
              "asancol: 3 reports at 1 place; 3 processes, 23 events; 1 INCOMPLETE\n")
    with open(f"{folder}/out.jsonl", encoding="utf-8") as file:
        entries = [json.loads(line) for line in file]
    expect([entry["type"] for entry in entries], ["run", "process", "process", "process", "finding"], "entries")
    expect((entries[0]["seconds"], entries[0]["command"], entries[0]["ended"]), (1.5, ["make", "check"], True), "run")
    expect((entries[4]["count"], entries[4]["processes"]), (3, 2), "finding")


@report_test
def run_ends(folder: str) -> None:
    """An unseen part is reported, with status 3: as asancol-run says it, or else by the field that has it."""
    ends: List[Tuple[Dict[str, Any], int, str]] = [
        ({}, 0, "asancol: no reports; 1 process, 9 events; all complete\n"),
        ({"timed_out": True, "running": True, "troubles": ["INCOMPLETE: why", "and why"]}, 3,
         "asancol: INCOMPLETE: why\nasancol: and why\nasancol: no reports; 1 process, 9 events; INCOMPLETE\n"),
        ({"nothing": True}, 3, "asancol: INCOMPLETE: nothing\n"),
        ({"missing": 2}, 3, "asancol: INCOMPLETE: missing\n"),
        ({"running": True}, 3, "asancol: INCOMPLETE: running\n"),
        ({"timed_out": True}, 3, "asancol: INCOMPLETE: timed_out\n"),
        ({"lost": 1}, 3, "asancol: INCOMPLETE: lost\n"),
    ]
    for more, status, text in ends:
        feed = Feed(folder)
        feed.begin()
        feed.process(0)
        ran = feed.end(**more)
        expect((ran.status, ran.err), (status, ""), str(more))
        expect_in(ran.out, text)
    feed = Feed(folder, "--quiet")
    feed.begin()
    feed.process(0)
    expect(feed.end(), (0, "", ""), "quiet")
    feed = Feed(folder)
    feed.begin()
    feed.process(0, FREED + END)
    ran = feed.finish()
    expect(ran.status, 1, "a hub that dies")
    expect_in(ran.out, "asancol-run ended before the run did", "load of 4 bytes")


@report_test
def command_fails(folder: str) -> None:
    """A test case passes only if its command ended with 0, and all was complete."""
    ends: List[Tuple[Dict[str, Any], int, str, str, Optional[int]]] = [
        ({}, 0, "", "", 0),
        ({"status": 7}, 0, "failure", "the command ended with status 7", 7),
        ({"signal": 15}, 0, "failure", "the command was ended by SIGTERM", None),
        ({"signal": 15, "timed_out": True}, 3, "error", "INCOMPLETE: timed_out", None),
        ({"status": 7, "reports": 1}, 1, "failure", "heap-use-after-free: load of 4 bytes", 7),
    ]
    for number, (more, status, kind, text, code) in enumerate(ends):
        feed = Feed(folder, "--json", f"{number}.jsonl")
        feed.begin(f"run-{number}")
        feed.process(0, (FREED + END) if "reports" in more else "")
        expect(feed.end(**more).status, status, str(more))
        # And the same from its JSON lines.
        ran = report(folder, f"{number}.jsonl", "--junit", "out.xml", "--sarif", "out.sarif", "--html", "out.html")
        expect(ran.status, status, str(more))
        (case,) = xml.dom.minidom.parse(f"{folder}/out.xml").getElementsByTagName("testcase")
        seen = [(it.tagName, it.getAttribute("message")) for it in case.childNodes[:1]]
        expect(bool(seen), bool(kind), str(more))
        if kind:
            expect(seen[0][0], kind, str(more))
            expect_in(seen[0][1], text)
        with open(f"{folder}/out.sarif", encoding="utf-8") as file:
            (invocation,) = json.load(file)["runs"][0]["invocations"]
        expect((invocation["executionSuccessful"], invocation.get("exitCode")), (not more, code), str(more))
        expect(invocation.get("exitSignalName"), "SIGTERM" if "signal" in more else None, str(more))
        with open(f"{folder}/out.html", encoding="utf-8") as file:
            expect("the command" in file.read(), bool(more), "the page")
    write_trace(folder, "a.trace", "p0 end no-close events 9 offset 99 reports 0\n", side(ending=3, signal=6, events=9))
    expect_in(report(folder, "--trace", "a.trace", "--junit", "-").out, '<failure type="ABRT" message="ABRT: ended by ',
              "asancol: the command was ended by SIGABRT")
    report(folder, *(f"{number}.jsonl" for number in range(5)), "--junit", "out.xml")
    (suite,) = xml.dom.minidom.parse(f"{folder}/out.xml").getElementsByTagName("testsuite")
    expect([suite.getAttribute(it) for it in ("tests", "failures", "errors")], ["5", "3", "1"], "counts")
    expect_in(suite.getElementsByTagName("system-err")[0].firstChild.data, "the command ended with status 7")


@report_test
def run_takes_anything(folder: str) -> None:
    feed = Feed(folder)
    feed.begin()
    for text in ("no JSON", "[]", '{"type":3}', '{"type":"process","n":"x"}', "[" * 5000):
        feed.send(text)
    reading, writing = os.pipe()
    feed.send({"type": "process", "n": 4, "pid": 4, "reports": 1, "whole": True}, reading, writing)
    feed.send({"type": "process", "n": 1 << 60, "pid": 4, "reports": 1, "whole": True}, reports.memory(FREED.encode()))
    feed.send({"type": "process", "n": 6, "pid": 6, "reports": 1, "whole": True, "command": ["lost"]})
    # A packet that waited has the count of a later segment, whose reports come next.
    feed.send({"type": "process", "n": 7, "pid": 7, "reports": 1, "whole": True, "command": ["late"]})
    feed.process(7, FREED + END)
    feed.process(5, FREED + END)
    ran = feed.end()
    expect_not_in(ran.out, "late: INCOMPLETE")
    expect_in(ran.out, "a message of asancol-run was not understood", "load of 4 bytes",
              "process 6 lost: INCOMPLETE: its reports did not arrive")
    expect(ran.err, "", "errors")
    ran = report(folder, "--run")
    expect(ran.status, 4, "no socket")
    expect_in(ran.err, "standard input is not a socket")
    feed = Feed(folder, "--suppressions", "missing")
    feed.begin()
    feed.process(0, FREED + END)
    ran = feed.end()
    expect(ran.status, 4, "suppressions that are not there")
    expect_in(ran.out, "load of 4 bytes")
    expect_in(ran.err, "missing: No such file or directory")


def ignores(process: int, signals: int) -> bool:
    return ignored_by(process) & signals == signals


def ignored_by(process: int) -> int:
    with open(f"/proc/{process}/status", encoding="utf-8") as file:
        return int(re.findall(r"^SigIgn:\s*(\w+)", file.read(), re.M)[0], 16)


@report_test
def run_gets_signals(folder: str) -> None:
    """A signal to the process group or the session costs no report, whenever it comes."""
    numbers = (signal.SIGINT, signal.SIGTERM, signal.SIGHUP, signal.SIGQUIT)
    everything = sum(1 << number - 1 for number in numbers)
    program = build(folder)
    for argv in (["--live=exit"], ["--json", "out.jsonl"]):
        feed = Feed(folder, *argv)
        wait_until(functools.partial(ignores, feed.child.pid, everything), "that signals are ignored")
        for turn in range(30):
            for number in numbers:
                feed.child.send_signal(number)
            time.sleep(0.01)
            if turn == 10:
                feed.begin()
                feed.process(0, FREED + END, of_program(program, [freed_block(program)], [0, 0, 0, 0, 1]))
        ran = feed.end()
        expect((ran.status, ran.err), (1, ""), ran.out)
        expect_in(ran.out, "load of 4 bytes", "in use ", "all complete")
    feed = Feed(folder)
    feed.begin()
    expect(feed.finish().status, 3, "when its input ends")


@report_test
def run_has_nested(folder: str) -> None:
    """What runs inside have left is merged: results, and the packets of one that needed no report."""
    os.mkdir(f"{folder}/hub")
    inner = Feed(folder, "--json", "hub/nested.1.jsonl")
    inner.begin("inner")
    inner.process(0, FREED + END)
    inner.end()
    with open(f"{folder}/hub/nested.2.jsonl", "w", encoding="utf-8") as file:
        for entry in ({"type": "run", "version": 1, "command": ["true"], "id": "second"},
                      {"type": "process", "n": 0, "pid": 5, "events": 4, "whole": True, "command": []},
                      {"type": "end", "seconds": 1, "nothing": False}):
            file.write(json.dumps(entry) + "\n")
    feed = Feed(folder, "--nested", f"{folder}/hub", "--json", "a.jsonl", "--json", "b.jsonl")
    feed.begin("outer")
    ran = feed.end()
    expect(ran.status, 1, ran.out + ran.err)
    expect_in(ran.out, "1 report at 1 place; 2 processes in 3 runs, 13 events; all complete")
    with open(f"{folder}/a.jsonl", "rb") as one, open(f"{folder}/b.jsonl", "rb") as other:
        expect(one.read(), other.read(), "both files")


@report_test
def live(folder: str) -> None:
    program = build(folder)
    parts = of_program(program, [freed_block(program)], [0, 0, 0, 0, 1])
    feed = Feed(folder, "--live=exit", "--source-root", ".")
    feed.begin()
    feed.process(0, FREED + END, parts)
    assert feed.child.stdout is not None
    first = feed.child.stdout.readline()
    expect(first, b"==100==ERROR: asancol: heap-use-after-free: load of 4 bytes\n", "the first line")
    feed.process(1, FREED + END, parts)
    ran = feed.end()
    expect(ran.out.count("ERROR"), 0, "later findings")
    expect(without_columns(ran.out).splitlines()[-3:], [
        "asancol: heap-use-after-free in use program.c:7: 2 times, 2 processes",
        "asancol: 2 reports at 1 place; 2 processes, 18 events; all complete",
        "SUMMARY: asancol: heap-use-after-free program.c:7 in use"], "the end")


@report_test
def halted_process_is_printed_at_once(folder: str) -> None:
    """If it has left that to its run: in AddressSanitizer's text, for each process. A place that another one has too
    has its count at the end."""
    program = build(folder)
    parts = of_program(program, [freed_block(program)], [0, 0, 0, 0, 1], ending=SIGNAL, signal=6)
    halted: Dict[str, Any] = {"signal": 6, "fate": "no-close", "why": "ended by SIGABRT", "halted": True}
    for word in ("--live=exit", "--no-machines", "--format=asan"):
        feed = Feed(folder, word, "--source-root", ".", "--json", "a.jsonl")
        feed.begin()
        for number in (0, 1):
            feed.process(number, FREED + END, parts, unsaid=True, **halted)
            assert feed.child.stdout is not None
            last = f"=={100 + number}==ABORTING\n".encode()
            text = b"".join(iter(feed.child.stdout.readline, last)).decode()
            expect_in(text, f"=={100 + number}==ERROR: AddressSanitizer: heap-use-after-free on address ")
        feed.process(2, FREED + END, parts, **halted)
        ran = feed.end()
        expect(ran.out.count("ERROR"), 0, "later findings")
        expect_in(without_columns(ran.out), "asancol: heap-use-after-free in use program.c:7: 3 times, 3 processes\n"
                  "asancol: 3 reports at 1 place; 3 processes, 27 events; all complete\n")
        expect_in(report(folder, "a.jsonl").out, "ERROR: asancol: heap-use-after-free: load of 4 bytes (3 times")


@report_test
def halted_process_gets_its_words(folder: str) -> None:
    """If it waits for them, beside what else comes with it, and even if nobody wants to see it. One that is gone, or
    reads nothing, holds nobody up."""
    program = build(folder)
    parts = of_program(program, [freed_block(program)], [0, 0, 0, 0, 1])
    with open(f"{folder}/rules", "w", encoding="utf-8") as file:
        file.write("at:heap-use-after-free:use\n")
    for words in ((), ("--suppressions", "rules"), ("--live=exit",)):
        feed = Feed(folder, *words, "--source-root", ".")
        feed.begin()
        texts = [feed.asking(number, FREED + END, parts, halted=True) for number in (0, 1)]
        for number, text in enumerate(texts):
            expect_in(text, f"=={100 + number}==ERROR: AddressSanitizer: heap-use-after-free on address ",
                      " in use program.c:7", "freed by thread ", f"=={100 + number}==ABORTING\n")
        feed.asking(2, FREED + END, parts, is_gone=True, halted=True)
        ran = feed.end()
        expect_not_in(ran.out, "AddressSanitizer")
        expect_in(ran.out, "3 suppressed" if "rules" in words else "asancol: 3 reports at 1 place; 3 processes, ")


@report_test
def side_memory_lies(folder: str) -> None:
    """Whatever stands there, there is a report and no more. If it says that an event is a further piece of the one
    before, the two count as one."""
    program = build(folder)
    good = of_program(program, [freed_block(program)] * 3, [0, 0, 0, 0, 1, 2, 3, 4, 1 << 31])
    lines = "".join(FREED.replace("#5", f"#{n}") for n in (*range(1, 12), 16777216, 16777217, 999999999)) + END
    chance = random.Random(1)
    for trial in range(40):
        parts = []
        for offset, data in good:
            bytes_of = bytearray(data)
            for _ in range(chance.randrange(30)):
                if bytes_of and trial:
                    bytes_of[chance.randrange(len(bytes_of))] = chance.randrange(256)
            parts.append((offset, bytes(bytes_of)))
        write_trace(folder, "a.trace", lines, parts)
        if trial % 3 == 2:
            os.truncate(f"{folder}/a.trace.where", chance.choice([0, 1, 60, 100, 4100, 9000, 300000, 67371050]))
        ran = report(folder, "--trace", "a.trace")
        expect((ran.status, ran.err), (1, ""), f"trial {trial}")
        counted = re.search(r"^asancol: (\d+) reports at ", ran.out, re.M)
        expect(counted is not None and int(counted[1]) in (14, 13), True, f"trial {trial}: {ran.out}")
    os.unlink(f"{folder}/a.trace.where")
    os.mkfifo(f"{folder}/a.trace.where")
    expect_in(report(folder, "--trace", "a.trace").out, "a.trace.where: not a regular file")


@report_test
def lines_are_no_lines(folder: str) -> None:
    odd = ["p0 #x load", "", "p0 #5 load 4 at zz bad 1 heap-use-after-free shadow fd", "\0\1\2", "x" * 3000000,
           "p0 #5 load 4 at 1 bad 1 some-class shadow fd",
           "p0 #99999999999 load 4 at 1 bad 1 heap-use-after-free shadow fd"]
    write_trace(folder, "a.trace", "\n".join(odd) + "\n" + FREED + END, side())
    ran = report(folder, "--trace", "a.trace")
    expect((ran.status, ran.err), (1, ""), "status")
    expect_in(ran.out, "1 report at 1 place", "7 lines of asancol were not understood")


@report_test
def text_does_nothing_to_a_terminal(folder: str) -> None:
    maps = "1000-9000 r-xp 0 0:0 1 /tmp/\x1b]0;x\x07\n"
    write_trace(folder, "a.trace", FREED + END, side(maps, [], [fault(0x2000)], [0, 0, 0, 0, 1]))
    ran = report(folder, "--trace", "a.trace")
    expect_in(ran.out, "/tmp/\\x1b]0;x\\x07+0x")
    expect_not_in(ran.out, "\x1b", "\x07")
    expect_in(report(folder, "--trace", "a.trace", "--color", "always").out, "\033[1;31m==7==ERROR")
    expect_not_in(report(folder, "--trace", "a.trace", "--color=auto").out, "\033")


@report_test
def words_are_refused(folder: str) -> None:
    for argv, text in (
        ((), "no file was named"),
        (["--jsn", "x", "y"], "unknown option --jsn; did you mean --json?"),
        (["a.jsonl", "--json"], "--json needs a value"),
        (["--json", "--", "a.jsonl"], "--json needs a value"),
        (["a.jsonl", "--quiet=1"], "--quiet takes no value"),
        (["a.jsonl", "--color", "red"], "--color is auto, always or never"),
        (["a.jsonl", "--json", "-", "--html", "-"], "only one output can go to standard output"),
        (["--run", "--trace", "x"], "--run and --trace do not go together"),
        (["a.jsonl", "--limit", "3"], "--limit is for --trace"),
        (["-", "-"], "standard input can be read once"),
        (["--trace", "-"], "a trace on standard input has no side file"),
        (["a.jsonl", "--json", "x", "--html", "./x"], "--json and --html both write ./x"),
        (["a.jsonl", "--json", "x", "--json", "x"], "--json and --json both write x"),
        (["a.jsonl", "--html", "a.jsonl"], "--html would write over a.jsonl, which is read"),
        (["--trace", "a.trace", "--json", "a.trace"], "--json would write over a.trace, which is read"),
        (["a.jsonl", "--baseline", "b.jsonl", "--sarif=b.jsonl"], "--sarif would write over b.jsonl, which is read"),
        (["a.jsonl", "--suppressions", "b", "--json", "b"], "--json would write over b, which is read"),
    ):
        ran = report(folder, *argv)
        expect((ran.status, ran.out), (2, ""), str(argv))
        expect_in(ran.err, "asancol-report: " + text)
    for argv in (["--help"], ["-h"], ["--version"], ["nothing", "--help"]):
        ran = report(folder, *argv)
        expect((ran.status, ran.err), (0, ""), str(argv))
    lines = report(folder, "--help").out.splitlines()
    expect(len(lines) <= 50 and max(map(len, lines)) <= 80, True, "one screen")
