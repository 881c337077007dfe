"""What a report shows: its line of source, its frames, the frame of a variable, the shadow, and what to quote of it."""

import json
import os
import re
import struct
from typing import Any, Dict, List

from testing import expect, expect_in, expect_not_in
from testing.reports import END, FREED, OVERFLOW, Feed, build, freed_block, one_trace, report, report_test, write_trace
from testing.side import Parts, Program, fault, of_program, side

STACK = OVERFLOW.replace("heap", "stack")
SUMMARY = "SUMMARY: asancol: "


def with_text(text: str) -> List[int]:
    """Returns the words of the stacks with a text, whose number is 1."""
    data = text.encode() + bytes(-len(text.encode()) % 8)
    return [0, len(text.encode()), *struct.unpack(f"<{len(data) // 8}Q", data)]


def last_line(text: str) -> str:
    return text.splitlines()[-1]


@report_test
def source_has_a_caret(folder: str) -> None:
    """The line stands under the frame of the place, with its column; and not if the file is newer than the program."""
    one_trace(folder)
    for tool, caret in (("", ["          | ^"]), ("addr2line", ())):
        ran = report(folder, "--trace", "a.trace", "--source-root", ".", "--json", "a.jsonl", ASANCOL_SYMBOLIZER=tool)
        lines = ran.out.splitlines()
        at = next(number for number, text in enumerate(lines) if " in use program.c:7" in text)
        expect(lines[at + 1:at + 2 + len(caret)], ['        7 | here("use"); /* <b>&"quoted"</b> */', *caret], tool)
        expect(len(re.findall(r"^ +\d+ \| ", ran.out, re.M)), 2, "one for each place")
        expect(report(folder, "a.jsonl", "--source-root", ".").out, ran.out, "read again")
    os.utime(f"{folder}/program.c", (2e9, 2e9))
    ran = report(folder, "--trace", "a.trace", "--source-root", ".", "--json", "b.jsonl")
    expect_not_in(ran.out, ' | here("use")')
    expect_in(ran.out, "in use program.c:7")
    with open(f"{folder}/a.jsonl", encoding="utf-8") as one, open(f"{folder}/b.jsonl", encoding="utf-8") as other:
        prints = [[it["fingerprint"] for it in map(json.loads, file) if "fingerprint" in it] for file in (one, other)]
    expect(prints[1], prints[0], "fingerprints")


@report_test
def carets_stand_under_columns(folder: str) -> None:
    """With tabs, letters of several bytes, and in a line that is longer than a screen."""
    program = build(folder)
    write_trace(folder, "a.trace", FREED + END, of_program(program, [freed_block(program)], [0, 0, 0, 0, 1]))
    tool = f"{folder}/addr2line"
    for text, column, shown, caret in (
        ("\t\tx  =  use ( y );", 9, "x = use ( y );", "    ^"),
        ("  /* \u00e9\u00e9 */ use();", 14, "/* \u00e9\u00e9 */ use();", "         ^"),
        ("x" * 150 + " use();", 152, ".." + "x" * 93 + " use();", " " * 96 + "^"),
        ("use(); " + "x" * 150, 1, "use(); " + "x" * 93 + "..", "^"),
        ("use();", 99, "use();", "      ^"),
        ("use\x1b[1m();", 4, "use\\x1b[1m();", "   ^"),
    ):
        with open(f"{folder}/made.c", "w", encoding="utf-8") as file:
            file.write(text + "\n")
        os.utime(f"{folder}/made.c", (1e9, 1e9))
        with open(tool, "w", encoding="utf-8") as file:
            file.write("#!/bin/sh\nwhile read address; do echo $address; echo use; "
                       f"echo {folder}/made.c:1:{column}; done\n")
        os.chmod(tool, 0o755)
        ran = report(folder, "--trace", "a.trace", "--json", "a.jsonl", ASANCOL_SYMBOLIZER=tool)
        expect_in(ran.out, f"        1 | {shown}\n          | {caret}\n")
        expect(report(folder, "a.jsonl").out, ran.out, "read again")


def stack_of(folder: str, names: List[str], *argv: str) -> List[str]:
    """Returns the lines of a stack whose functions a symbolizer calls so, the innermost first."""
    program = build(folder)
    places = program.places
    # One place has one name: so each frame is one that was inlined into the next.
    tool = f"{folder}/addr2line"
    said = "".join(f"echo '{name.partition('@')[0]}'; echo {name.partition('@')[2] or '/x/a.c'}:3; " for name in names)
    with open(tool, "w", encoding="utf-8") as file:
        file.write(f"#!/bin/sh\nwhile read address; do echo $address; {said}done\n")
    os.chmod(tool, 0o755)
    faults = [fault(places["use"], 0x2000, 8, variable=1, name="x")]
    write_trace(folder, "a.trace", OVERFLOW + END, of_program(program, faults, [0, 1]))
    text = report(folder, "--trace", "a.trace", *argv, ASANCOL_SYMBOLIZER=tool).out
    return re.findall(r"^    ((?:#|\.\.).*)$", re.sub(r"0x[0-9a-f]+ in ", "", text), re.M)


LONG = "std::pair<std::string, std::vector<int, std::allocator<int> >, std::allocator<std::string> >"
HEADER = "/usr/include/c++/12/bits/stl_algo.h"
RECORDER = "/build/recorder/process/halt.c"


@report_test
def frames_of_libraries_are_one_line(folder: str) -> None:
    sort = f"void std::__sort<{LONG}*>({LONG}*, {LONG}*)@{HEADER}"
    expect(stack_of(folder, ["use", sort, sort, sort, "caller"]),
           ["#0 use /x/a.c:3 (inlined)", ".. 3 frames of std::", "#4 caller /x/a.c:3"], "in the middle")
    expect(stack_of(folder, [sort, sort, "use"]), [".. 2 frames of std::", "#2 use /x/a.c:3"], "first")
    expect(stack_of(folder, [sort, "use"])[0],
           f"#0 void std::__sort<..>(std::pair<..>*, std::pair<..>*) {HEADER}:3 (inlined)",
           "one alone")
    expect(stack_of(folder, ["use", f"f@{RECORDER}", sort, "caller"])[1], ".. 2 frames of the recorder and std::",
           "of two")
    # The place is shown whatever it is.
    expect(stack_of(folder, ["std::f()@/y/b.c", "std::g()@/y/b.c", "use"])[0], "#0 std::f() /y/b.c:3 (inlined)",
           "the place")
    whole = stack_of(folder, ["use", sort, sort, "caller"], "--full-stacks")
    expect((len(whole), LONG in whole[1]), (4, True), "with --full-stacks")


@report_test
def own_functions_are_no_library(folder: str) -> None:
    """Whatever they return, take or are called."""
    names = [f"std::string own::f<{LONG}>()", "own::operator std::string() const",
             "own::g<int, std::function<void ()> >(int)",
             "(anonymous namespace)::h(std::string)", "bool own::operator< <int>(own::A<int> const&)",
             "main::{lambda(std::string)#1}::operator()(std::string) const", "std", "stdx::f()"]
    shown = stack_of(folder, names)
    expect(len(shown), len(names), str(shown))
    expect(shown[0], "#0 std::string own::f<..>() /x/a.c:3 (inlined)", "cut")
    theirs = ["std::ostream& std::operator<< <std::char_traits<char> >(std::ostream&, char const*)@" + HEADER,
              "std::function<void ()>::operator()() const@" + HEADER,
              "bool __gnu_cxx::operator< <int*>(int*)@" + HEADER,
              "std::shared_ptr<own::A>::operator->() const@" + HEADER, "__cxxabiv1::f()@" + HEADER]
    expect(stack_of(folder, ["use", *theirs]), ["#0 use /x/a.c:3 (inlined)", f".. {len(theirs)} frames of std::"],
           "theirs")


@report_test
def functions_of_rusts_library_are_one_line(folder: str) -> None:
    """Also without a line, as they came compiled. What a crate adds to a type of the library is the crate's."""
    theirs = ["<alloc::raw_vec::RawVecInner>::try_allocate_in", "<alloc::vec::Vec<own::A>>::push",
              "<alloc::vec::Vec<own::A> as core::ops::drop::Drop>::drop", "<std::sys::thread::unix::Thread>::new"]
    expect(stack_of(folder, ["use", *(f"{it}@??" for it in theirs), "caller"])[1:],
           [f".. {len(theirs)} frames of std::", f"#{len(theirs) + 1} caller /x/a.c:3"], "theirs")
    names = ["<own::A as core::fmt::Display>::fmt", "<alloc::vec::Vec<u8> as own::Trait>::f", "<own::A>::new",
             "<(alloc::A, core::B) as own::Trait>::f", "<corelib::A>::new", "core::f"]
    expect(len(stack_of(folder, ["use", *names])), len(names) + 1, "own")


VARIABLES = "3 32 16 7 buf:196 64 8 5 other 96 4 11 caf\u00e9 x:12"


def frame_of(program: Program, text: str, at: int = 0x2000) -> Parts:
    """The bad byte 0x2005 is that of a frame that begins so that it is at offset 48."""
    stacks = with_text(text)
    frame = (0x2005 - 48, program.places["make"] - 4)
    fields: Dict[str, Any] = {"variable": 1, "name": "buf", "line": 196, "frame": frame, "variables": 1}
    return of_program(program, [fault(program.places["use"], at, 16, **fields)], [0, 1], stacks=stacks)


@report_test
def variables_have_their_frame(folder: str) -> None:
    program = build(folder)
    for text, at, lines in (
        ("2 32 16 7 buf:196 64 8 5 other", 0x2005 - 16,
         ["  0x2005 is 0 bytes past the end of 'buf' (16 bytes) on the stack, declared in line 196, in frame of make, "
          "program.c:10",
          "  This frame has 2 objects:",
          "    [32, 48) 'buf' (line 196) <== the access at offset 48 overflows this variable",
          "    [64, 72) 'other'"]),
        ("1 64 16 7 buf:196", 0x2005 + 16,
         ["    [64, 80) 'buf' (line 196) <== the access at offset 48 underflows this variable"]),
        ("1 48 16 7 buf:196", 0x2005,
         ["    [48, 64) 'buf' (line 196) <== the access at offset 48 is inside this variable"]),
        ("1 32 16 15 (anonymous):9:3", 0x2005 - 16,
         ["    [32, 48) '(anonymous)' (line 9) <== the access at offset 48 over"]),
        ("1 32 16 7 caf\u00e9:9", 0x2005 - 16,
         ["    [32, 48) 'caf\u00e9' (line 9) <== the access at offset 48 overflows"]),
        # What the recorder has cut, and what makes no sense.
        ("2 32 16 7 buf:196 64 8 50 oth", 0x2005 - 16,
         ["  This frame has 1 object:\n    [32, 48) 'buf' (line 196) <=="]),
    ):
        write_trace(folder, "a.trace", STACK + END, frame_of(program, text, at))
        ran = report(folder, "--trace", "a.trace", "--source-root", ".", "--json", "a.jsonl")
        expect_in(re.sub(r"(program\.c:\d+):\d+", r"\1", ran.out), "\n".join(lines))
        expect(report(folder, "a.jsonl", "--source-root", ".").out, ran.out, "read again")
    byte = "p0 #2 store 1 at 000000002005 bad 000000002005 stack-buffer-overflow shadow f8\n"
    write_trace(folder, "a.trace", byte + END, frame_of(program, "1 48 16 7 buf:196", 0x2005))
    expect_in(report(folder, "--trace", "a.trace", "--source-root", ".").out,
              "declared in line 196, whose scope has ended, in frame of make, program.c:10")
    for text in ("", "x", "-1 3 4", "9999999 1", "2 99999999999999 1 1 a", "0"):
        write_trace(folder, "a.trace", STACK + END, frame_of(program, text))
        expect_not_in(report(folder, "--trace", "a.trace").out, "This frame")
    many = "300 " + " ".join(f"{64 * n} 8 4 v{n:03}" for n in range(300))
    write_trace(folder, "a.trace", STACK + END, frame_of(program, many[:4000], 0x2005 - 48 + 64 * 100))
    text = report(folder, "--trace", "a.trace").out
    expect(len(re.findall(r"^    \[", text, re.M)), 16, text)
    expect_in(text, "[6400, 6408) 'v100' <== the access", " more\n")


@report_test
def the_last_line_can_be_quoted(folder: str) -> None:
    one_trace(folder)
    ran = report(folder, "--trace", "a.trace", "--source-root", ".", "--json", "a.jsonl")
    expect(re.sub(r"(c:\d+):\d+", r"\1", last_line(ran.out)), SUMMARY + "heap-buffer-overflow program.c:14 in drop",
           "the first place")
    with open(f"{folder}/rules", "w", encoding="utf-8") as file:
        file.write("fun:^drop$\nfun:nothing\n")
    ran = report(folder, "a.jsonl", "--source-root", ".", "--suppressions", "rules")
    expect_in(ran.out, "a suppression matched nothing")
    with open(f"{folder}/rules", "w", encoding="utf-8") as file:
        file.write("at:*:drop\n")
    ran = report(folder, "a.jsonl", "--source-root", ".", "--suppressions", "rules")
    expect(re.sub(r"(c:\d+):\d+", r"\1", last_line(ran.out)), SUMMARY + "heap-use-after-free program.c:7 in use",
           "that counts")
    with open(f"{folder}/rules", "w", encoding="utf-8") as file:
        file.write("*:*\n")
    expect_not_in(report(folder, "a.jsonl", "--suppressions", "rules").out, SUMMARY)
    write_trace(folder, "b.trace", FREED.replace("load 4", "free").replace(" bad 000000002000", "")
                .replace("heap-use-after-free shadow fd", "double-free") + END,
                side(faults=[fault(0x10)], index=[0, 0, 0, 0, 1]))
    expect(last_line(report(folder, "--trace", "b.trace").out), SUMMARY + "double-free 0xf", "the class")


@report_test
def a_crash_can_be_quoted(folder: str) -> None:
    """If no report counts. The place is the first that is the program's own."""
    feed = Feed(folder)
    feed.begin()
    feed.process(0, signal=11, why="ended by SIGSEGV", stack=[])
    expect(last_line(feed.end().out).startswith(SUMMARY + "SEGV "), True, "a crash")
    write_trace(folder, "a.trace", "p0 end no-close events 9 offset 9 reports 0\n", side(ending=3, signal=6, events=9))
    expect(last_line(report(folder, "--trace", "a.trace").out).startswith(SUMMARY + "ABRT "), True, "of a trace")


@report_test
def shadow_is_shown(folder: str) -> None:
    program = build(folder)
    shadow = bytes(80) + bytes.fromhex("05") + b"\xfa" * 95
    faults = [fault(program.places["use"], 0x2000, 5, shadow=shadow, shadow_start=0x1D80),
              fault(program.places["make"], 0x2100, 5)]
    lines = OVERFLOW + OVERFLOW.replace("#2", "#3").replace("2005", "2105")
    write_trace(folder, "a.trace", lines + END, of_program(program, faults, [0, 1, 2]))
    ran = report(folder, "--trace", "a.trace", "--shadow", "--json", "a.jsonl")
    rows = "\n".join(["Shadow bytes around the buggy address:",
                      *(f"  0x{at:012x}:{' 00' * 16}" for at in range(0x1D80, 0x2000, 0x80)),
                      f"=>0x000000002000:[05]fa{' fa' * 14}", "  0x000000002080: fa fa "])
    expect_in(ran.out, rows)
    expect(ran.out.count("Shadow bytes around"), 1, "where it was kept")
    expect(ran.out.count("Shadow byte legend"), 1, "the legend")
    expect(report(folder, "a.jsonl", "--shadow").out, ran.out, "read again")
    expect_not_in(report(folder, "a.jsonl").out, "Shadow")
    write_trace(folder, "b.trace", END, side())
    expect_not_in(report(folder, "--trace", "b.trace", "--shadow").out, "Shadow")


@report_test
def an_address_has_all_bits(folder: str) -> None:
    """A trace has 47 of them, and the fault all."""
    program, top = build(folder), 1 << 47
    faults = [fault(program.places["use"], top + 0x2000, 5, access=(top + 0x2005, 1))]
    write_trace(folder, "a.trace", OVERFLOW + END, of_program(program, faults, [0, 1]))
    ran = report(folder, "--trace", "a.trace", "--json", "a.jsonl")
    expect_in(ran.out, "0x800000002005 is 0 bytes past the end of a block of 5 bytes")
    expect(report(folder, "a.jsonl").out, ran.out, "read again")


@report_test
def fifty_places_are_shown(folder: str) -> None:
    faults = [fault(0x1000 + 16 * number, 0x2000 + 64 * number, 5) for number in range(60)]
    lines = "".join(OVERFLOW.replace("#2", f"#{n + 1}").replace("2005", f"{0x2005 + 64 * n:x}") for n in range(60))
    for count in (50, 51, 60):
        write_trace(folder, "a.trace", "".join(lines.splitlines(True)[:count]) + END,
                    side(faults=faults, index=range(1, count + 1)))
        ran = report(folder, "--trace", "a.trace", "--json", "a.jsonl")
        expect((ran.out.count("ERROR"), ran.out.count(" more place")), (50, int(count > 50)), f"{count} places")
        expect_in(ran.out, f"asancol: {count} reports at {count} places;")
    expect_in(ran.out, "asancol: 10 more places are in a.jsonl\n")
    expect_in(report(folder, "--trace", "a.trace").out,
              "asancol: 10 more places are not shown: --json FILE and --html FILE have them all\n")
    ran = report(folder, "a.jsonl", "--html", "a.html", "--live=exit")
    expect_in(ran.out, "asancol: 10 more places are in a.html\n")
    with open(f"{folder}/a.html", encoding="utf-8") as file:
        expect(file.read().count("<details class=\"card"), 60, "on the page")
    feed = Feed(folder, "--live=exit")
    feed.begin()
    feed.process(0, lines + END, side(faults=faults, index=range(1, 61)))
    ran = feed.end()
    expect((ran.out.count("ERROR"), ran.out.count("10 more places are not shown")), (50, 1), "while it runs")


@report_test
def frames_of_tests_are_one_line(folder: str) -> None:
    """Those of frameworks, of headers of C++ where a local type leaves no scope, and those that the user hides."""
    run = "void testing::internal::HandleExceptionsInMethodIfSupported<testing::Test, void>(testing::Test*)"
    expect(stack_of(folder, ["use", run, "testing::Test::Run()", "testing::UnitTest::Run()", "caller"])[1:],
           [".. 3 frames of googletest", "#4 caller /x/a.c:3"], "googletest")
    expect(stack_of(folder, ["use", "Catch::TestCaseHandle::invoke() const", "Catch::Session::run()", "caller"])[1],
           ".. 2 frames of Catch2", "Catch2")
    expect(stack_of(folder, ["use", "UnityDefaultTestRun@/x/unity.c", "main_runner@/x/unity.c", "caller"])[1],
           ".. 2 frames of Unity", "Unity")
    invoked = f"__invoke_impl<void, main()::<lambda()>&>@{HEADER}"
    expect(stack_of(folder, ["use", invoked, invoked.replace("_impl", "_r"), "caller"])[1], ".. 2 frames of std::",
           "a lambda")
    expect(stack_of(folder, ["use", "Suite_Test::TestBody()", "testing_own()", "caller"])[1:3],
           ["#1 Suite_Test::TestBody() /x/a.c:3 (inlined)", "#2 testing_own() /x/a.c:3 (inlined)"], "own")
    names = ["use", "app::loop::run()", "app::loop::step()", "other", "app::loop::one()", "caller"]
    expect(stack_of(folder, names, "--hide-frames=^app::loop::*", "--hide-frames", "/nothing.c$")[1:],
           [".. 2 frames of ^app::loop::*", "#3 other /x/a.c:3 (inlined)", ".. 1 frame of ^app::loop::*",
            "#5 caller /x/a.c:3"], "hidden")
    expect(len(stack_of(folder, names, "--hide-frames=^app::loop::*", "--full-stacks")), len(names), "all frames")


@report_test
def paths_are_below_the_current_folder(folder: str) -> None:
    """Also without --source-root. Suppressions and AddressSanitizer's text have them as they were."""
    one_trace(folder)
    ran = report(folder, "--trace", "a.trace", "--gen-suppressions")
    expect_in(ran.out, "in use program.c:7", f"suppression: at:heap-buffer-overflow:drop@{os.path.basename(folder)}/")
    expect_in(report(folder, "--trace", "a.trace", "--format=asan").out, f"in use {folder}/program.c:7")


@report_test
def hints_are_in_the_text(folder: str) -> None:
    """Once for each class."""
    faults = [fault(0x1000 + 64 * number, 0x2000 + 0x1000 * number, 5) for number in range(3)]
    lines = "".join(OVERFLOW.replace("#2", f"#{n + 1}").replace("2005", f"{0x2005 + 0x1000 * n:x}") for n in range(3))
    write_trace(folder, "a.trace", lines + END, side(faults=faults, index=[1, 2, 3]))
    ran = report(folder, "--trace", "a.trace")
    hint = "  hint: Compare the index or length at the access"
    expect((ran.out.count("ERROR"), ran.out.count(hint)), (3, 1), ran.out)
    expect_not_in(report(folder, "--trace", "a.trace", "--format=asan").out, "hint: ")
