"""Threads in reports: which ones, their names, and where they were created."""

import json
import re
from typing import List, Sequence, Tuple

from testing import expect, expect_in, expect_not_in
from asancol_report import side as layout
from testing.reports import END, FREED, OVERFLOW, Feed, build, freed_block, report, report_test, write_trace
from testing.side import SIGNAL, Parts, Program, fault, of_program, thread

UNKNOWN = (1 << 32) - 1


def listed(program: Program) -> List[bytes]:
    """T7, which the first thread has created in `make`; T9, which T7 has created in `drop`, from a stack; and T12, of
    which nothing is known."""
    places = program.places
    return [thread(7, 1007, created=places["make"]), thread(9, 1009, "worker", places["drop"], 1, 1),
            thread(12, UNKNOWN, creator=UNKNOWN)]


def parts_of(program: Program, threads: Sequence[Tuple[int, int, int]]) -> Parts:
    """Side memory with a fault for each of these: of the access, the malloc and the free, by their numbers in the
    list."""
    faults = [freed_block(program, threads=it) for it in threads]
    stacks = [0, 2, program.places["drop"], program.places["use"]]
    return of_program(program, faults, [0, 0, 0, 0, *range(1, len(faults) + 1)], stacks=stacks, threads=listed(program))


def text_of(folder: str, *threads: Tuple[int, int, int]) -> str:
    program = build(folder)
    lines = "".join(FREED.replace("#5", f"#{5 + at}") for at in range(len(threads)))
    write_trace(folder, "a.trace", lines + END, parts_of(program, threads))
    return report(folder, "--trace", "a.trace", "--json", "a.jsonl", "--html", "a.html").out


def without_offsets(text: str) -> List[str]:
    """Returns the lines of a report without addresses and source, and with functions for frames."""
    lines = [line for line in text.split("\n") if not re.match(r" *\d* \|", line)]
    return [re.sub(r"#(\d) \S+ in (\w+).*", r"#\1 \2", line) for line in lines]


WHOLE = """ERROR: asancol: heap-use-after-free: load of 4 bytes in thread T9 (worker)
    #0 use
    #1 main
  0x2000 is byte 0 of a freed block of 16 bytes
  allocated in thread T7 at
    #0 make
  freed at
    #0 drop
  Thread T9 (worker) created by T7 at
    #0 drop
    #1 use
    #2 main
  Thread T7 created by T0 at
    #0 make
"""


@report_test
def threads_are_named(folder: str) -> None:
    """Of the first thread nothing is said. Each other one is described once, also if it is a creator."""
    text = text_of(folder, (2, 1, 0))
    expect_in(text, WHOLE.partition("\n")[0])
    expect_in("\n".join(without_offsets(text)), WHOLE.partition("\n")[2])
    expect(text_of(folder, (2, 2, 2)).count("Thread T9"), 1, "one thread")
    expect_not_in(text_of(folder, (0, 0, 0)), "hread")


@report_test
def the_first_thread_is_named(folder: str) -> None:
    """If the program has given it a name. Not of a malloc of which nothing is known, and it is no thread that was
    made."""
    program = build(folder)
    for threads, heads in (((0, 1, 0), ["load of 4 bytes in thread T0 (boss)", "allocated in thread T7",
                                        "freed in thread T0 (boss)"]),
                           ((1, 0, 2), ["load of 4 bytes in thread T7", "allocated in thread T0 (boss)",
                                        "freed in thread T9 (worker)"])):
        parts = of_program(program, [freed_block(program, threads=threads)], [0, 0, 0, 0, 1], threads=listed(program),
                           stacks=[0, 2, program.places["drop"], program.places["use"]], first_name="boss")
        write_trace(folder, "a.trace", FREED + END, parts)
        ran = report(folder, "--trace", "a.trace", "--json", "a.jsonl", "--html", "a.html")
        expect_in(ran.out, *heads, "Thread T7 created by T0 (boss) at\n")
        expect_not_in(ran.out, "Thread T0")
        expect(report(folder, "a.jsonl").out, ran.out, "read again")
    earlier = fault(program.places["use"], 0x2000, 16)
    write_trace(folder, "a.trace", FREED + END, of_program(program, [earlier], [0, 0, 0, 0, 1], first_name="boss"))
    expect_in(report(folder, "--trace", "a.trace").out, "load of 4 bytes in thread T0 (boss)\n",
              "  allocated at\n    #0 before the trace began\n")


@report_test
def the_thread_of_a_crash_is_said(folder: str) -> None:
    program = build(folder)
    for last, text in ((2, " in thread T9 (worker)"), (UNKNOWN, " in an unknown thread"), (0, "")):
        parts = of_program(program, [], [], ending=SIGNAL, signal=11, threads=listed(program), last_thread=last,
                           stacks=[0, 2, program.places["drop"], program.places["use"]])
        parts.append((layout.LAST_AT, layout.LAST.pack(program.places["use"], 0x10, 0, layout.HAS_ADDRESS)))
        feed = Feed(folder, "--json", "a.jsonl", "--html", "a.html", "--sarif", "a.sarif")
        feed.begin(f"run-{last}")
        feed.process(0, END.replace("reports 1", "reports 0"), parts, signal=11, fate="no-close",
                     why="ended by SIGSEGV")
        ran = feed.end()
        expect_in(ran.out, f"./program: ended by SIGSEGV, at address 0x10{text}\n    #0 ")
        expect(("  Thread T9 (worker) created by T7 at\n" in ran.out), last == 2, ran.out)
        expect(report(folder, "a.jsonl").out, ran.out, "read again")
        with open(f"{folder}/a.html", encoding="utf-8") as page, open(f"{folder}/a.sarif", encoding="utf-8") as log:
            expect_in(page.read(), f"<h3>Where it was{text}</h3>")
            expect_in(log.read(), f"ended by SIGSEGV, at address 0x10{text} here")


@report_test
def unknown_threads_are_said(folder: str) -> None:
    text = text_of(folder, (UNKNOWN, 3, 500))
    expect_in(text, "load of 4 bytes in an unknown thread\n")
    expect_in(text, "  allocated in thread T12 at\n")
    expect_in(text, "  freed in an unknown thread at\n")
    expect_in(text, "  Thread T12 created by an unknown thread at\n    #0 its place was not recorded\n")


@report_test
def threads_are_not_what_makes_a_finding(folder: str) -> None:
    """The threads are those of the first event."""
    text = text_of(folder, (2, 1, 0), (1, 0, 2), (0, 0, 0))
    expect_in(text, "load of 4 bytes in thread T9 (worker) (3 times, 1 process)\n")
    expect(text.count("ERROR: "), 1, "findings")


@report_test
def threads_are_in_other_outputs(folder: str) -> None:
    text = text_of(folder, (2, 1, 0))
    with open(f"{folder}/a.jsonl", encoding="utf-8") as file:
        finding = next(it for it in map(json.loads, file) if it["type"] == "finding")
    expect((finding["thread"], finding["allocated_thread"], "freed_thread" in finding), (9, 7, False), "fields")
    shown = [({key: it.get(key) for key in ("number", "creator", "name", "tid")}, it["created"][0]["function"])
             for it in finding["threads"]]
    expect(shown, [({"number": 9, "creator": 7, "name": "worker", "tid": 1009}, "drop"),
                   ({"number": 7, "creator": 0, "name": None, "tid": 1007}, "make")], "threads")
    expect(report(folder, "a.jsonl").out, text, "read again")
    with open(f"{folder}/a.html", encoding="utf-8") as file:
        page = file.read()
    expect(re.findall("<h3>([^<]*)</h3>", page), [
        "Access in thread T9 (worker)", "Block allocated in thread T7 at", "Block freed at",
        "Thread T9 (worker) created by T7 at", "Thread T7 created by T0 at"], "the page")
    expect_in(page, "</span>: load of 4 bytes in thread T9 (worker)</span>")
    (result,) = json.loads(report(folder, "a.jsonl", "--sarif", "-").out)["runs"][0]["results"]
    expect([it["message"]["text"] for it in result["stacks"]], [
        "load of 4 bytes in thread T9 (worker) here", "block freed here", "block allocated in thread T7 here",
        "Thread T9 (worker) created by T7 here", "Thread T7 created by T0 here"], "SARIF")
    expect(result["message"]["text"], "heap-use-after-free: load of 4 bytes, byte 0 of a freed block of 16 bytes",
           "the message is the same, whichever thread it was")


@report_test
def unknown_threads_are_read_again(folder: str) -> None:
    text = text_of(folder, (UNKNOWN, 3, 500))
    expect(report(folder, "a.jsonl").out, text, "read again")
    with open(f"{folder}/a.jsonl", encoding="utf-8") as file:
        finding = next(it for it in map(json.loads, file) if it["type"] == "finding")
    expect((finding["thread"], finding["threads"][0].get("tid")), (-1, None), "fields")


@report_test
def lists_that_are_wrong_do_no_harm(folder: str) -> None:
    """Threads that have created each other, more than are shown, names that are no text, entries that are not whole."""
    program = build(folder)
    wrong = {
        "ring": [thread(1, 5, creator=2), thread(2, 6, creator=1)],
        "long": [thread(at, at, creator=at + 1) for at in range(1, 4097)],
        "name": [thread(1, 5, "\x1b]0;a\x07<b>", program.places["make"])],
        "part": [thread(1, 0, "none"), thread(0, 5, "none")],
        "stack": [thread(1, 5, created=1, stack=99999999)],
    }
    for name, threads in wrong.items():
        parts = of_program(program, [freed_block(program, threads=(1, 2, 1))], [0, 0, 0, 0, 1], threads=threads)
        write_trace(folder, "a.trace", FREED + END, parts)
        ran = report(folder, "--trace", "a.trace", "--html", "a.html")
        expect((ran.status, ran.out.count("Thread T") <= 100), (1, True), name)
        expect_not_in(ran.out, "\x1b", "none")
    ran = report(folder, "--trace", "a.trace", "--json", "-")
    lines = [json.loads(line) for line in ran.out.splitlines()]
    found = next(it for it in lines if it["type"] == "finding")
    found.update(thread="x", threads=[1, {"number": "x", "creator": [], "created": 7}], freed_thread=-5)
    with open(f"{folder}/w.jsonl", "w", encoding="utf-8") as file:
        file.writelines(json.dumps(it) + "\n" for it in lines)
    expect(report(folder, "w.jsonl").status, 1, "a result with other types")


@report_test
def threads_of_a_variable(folder: str) -> None:
    """Of a fault that has no block the access alone has a thread."""
    program = build(folder)
    one = fault(program.places["use"], 0x2000, 5, variable=2, name="counter", threads=(2, 0, 0))
    parts = of_program(program, [one], [0, 1], threads=listed(program))
    write_trace(folder, "a.trace", OVERFLOW.replace("heap", "global").replace("05", "f9") + END, parts)
    text = report(folder, "--trace", "a.trace").out
    expect_in(text, "store of 1 byte in thread T9 (worker)\n")
    expect_not_in(text, "allocated")
