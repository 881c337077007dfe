"""Lines and functions of places: of programs that have changed or are gone, in C++, through callers."""

import io
import os
import re
import shutil

from testing import expect, expect_in, expect_not_in, reports
from testing.programs import killed_after
from testing.reports import END, FREED, OVERFLOW, Feed, build, freed_block, one_trace, report, report_test, write_trace
from testing.side import fault, of_program, side


@report_test
def program_has_changed(folder: str) -> None:
    program = build(folder)
    parts = of_program(program, [freed_block(program)], [0, 0, 0, 0, 1])
    write_trace(folder, "a.trace", FREED + END, parts)
    build(folder, "program", reports.PLACES_C.replace("int main", "\n\nint main"))
    ran = report(folder, "--trace", "a.trace")
    expect_in(ran.out, "/program has changed since it ran: its places have no lines", f"({program.path}+0x")
    expect_not_in(ran.out, "program.c")
    os.unlink(program.path)
    ran = report(folder, "--trace", "a.trace")
    expect_in(ran.out, "/program is not there: its places have no lines", f"({program.path}+0x")
    os.mkfifo(program.path)
    expect_in(report(folder, "--trace", "a.trace").out, "/program can't be read", f"({program.path}+0x")


@report_test
def program_without_build_id(folder: str) -> None:
    """The time of the file decides, and its inode."""
    program = build(folder, "program", reports.PLACES_C, "-Wl,--build-id=none")
    changed = os.stat(program.path).st_ctime_ns
    for started, has_lines in ((changed + 1, True), (changed - 1, False)):
        parts = side(program.maps, [], [freed_block(program)], [0, 0, 0, 0, 1], started=started)
        write_trace(folder, "a.trace", FREED + END, parts)
        text = report(folder, "--trace", "a.trace").out
        expect("program.c" in text, has_lines, f"lines: {text}")
        expect("has changed since" in text, not has_lines, "a note")


@report_test
def program_is_gone_at_the_end(folder: str) -> None:
    """A program that is built anew after each run has its lines all the same."""
    feed = Feed(folder, "--source-root", ".", "--live=exit")
    feed.begin()
    program = build(folder)
    feed.process(0, FREED + END, of_program(program, [freed_block(program)], [0, 0, 0, 0, 1]))
    expect_in(feed.child.line().decode(), "ERROR")
    os.unlink(program.path)
    program = build(folder, "program", "\n" + reports.PLACES_C)
    feed.process(1, FREED + END, of_program(program, [freed_block(program)], [0, 0, 0, 0, 1]))
    printed = feed.child.stdout
    assert isinstance(printed, io.BufferedReader)
    with killed_after(feed.child.pid):
        while b"seen" not in printed.peek(1) and b"program.c:8" not in (line := printed.readline()):
            expect(line != b"", True, "that it goes on")
    os.unlink(program.path)
    ran = feed.end()
    expect_in(ran.out, "2 reports at 2 places")
    expect_not_in(ran.out, "has changed", "not there")


@report_test
def symbolizer_fails(folder: str) -> None:
    one_trace(folder)
    with open(f"{folder}/llvm-symbolizer-silent", "w", encoding="utf-8") as file:
        file.write("#!/bin/sh\nexit 0\n")
    os.chmod(f"{folder}/llvm-symbolizer-silent", 0o755)
    for name in ("cat", "readlink"):
        os.symlink(shutil.which(name) or name, f"{folder}/{name}")
    for tool, text in (
        ("/proc/none/tool", "/proc/none/tool, which ASANCOL_SYMBOLIZER names, was not found: places have no lines"),
        ("./llvm-symbolizer-silent", "gives no lines"),
        ("/bin/cat", "gives no lines"),
        ("", "asancol: neither llvm-symbolizer nor addr2line was found: places have no lines"),
    ):
        path = os.environ["PATH"] if tool else folder
        ran = report(folder, "--trace", "a.trace", ASANCOL_SYMBOLIZER=tool, PATH=path)
        expect(ran.status, 1, tool)
        expect(ran.out.count(text), 1, ran.out)
        expect_in(ran.out, f"({folder}/program+0x")


CPP = """
namespace some {
template <class T> struct Thing {
    __attribute__((noinline)) void make(T) { here("make"); __asm__ volatile(""); }
};
}
"""


@report_test
def cpp_names(folder: str) -> None:
    source = reports.PLACES_C.replace("here(\"make\")", "here(\"other\")")
    source = source.replace("    make();", "    some::Thing<int>().make(1);")
    source = source.replace("int main(void) {", CPP + "int main(void) {")
    program = build(folder, "program", source, "-x", "c++", "-lstdc++")
    write_trace(folder, "a.trace", FREED + END, of_program(program, [freed_block(program)], [0, 0, 0, 0, 1]))
    for tool in ("llvm-symbolizer", "addr2line"):
        if shutil.which(tool):
            text = report(folder, "--trace", "a.trace", ASANCOL_SYMBOLIZER=tool).out
            expect_in(text, "in some::Thing<int>::make(int) ")


@report_test
def copies_have_the_name(folder: str) -> None:
    """A copy of a function, which the compiler has made, is called as the function is."""
    program = build(folder)
    write_trace(folder, "a.trace", FREED + END, of_program(program, [freed_block(program)], [0, 0, 0, 0, 1]))
    tool = f"{folder}/addr2line"
    for name, wanted in (
        ("f.constprop.0", "f"), ("f.isra.0.part.12.cold", "f"),
        ("a::f(int) [clone .isra.0] [clone .cold]", "a::f(int)"),
        ("f(int) (.llvm.123)", "f(int)"), ("file.part", "file"), ("f.other", "f.other"), ("f.cold.1.x", "f.cold.1.x"),
    ):
        with open(tool, "w", encoding="utf-8") as file:
            file.write(f"#!/bin/sh\nwhile read address; do echo $address; echo '{name}'; echo /x/a.c:3; done\n")
        os.chmod(tool, 0o755)
        expect_in(report(folder, "--trace", "a.trace", ASANCOL_SYMBOLIZER=tool).out, f" in {wanted} /x/a.c:3\n")


@report_test
def stacks_have_callers(folder: str) -> None:
    """A stack ends with main, or where no call is, except for one instruction that a signal has interrupted. One that
    is cut, too long or of another place is none."""
    program = build(folder)
    use, make, drop = (program.places[name] for name in ("use", "make", "drop"))
    main, libc = use, 0x700000000000  # in main, which has inlined use; and one in no module
    words = [0, 3, make, main, libc, 4, drop, make, main, make, 2, drop, libc, 40, drop, main, 3, drop, main + 1, make,
             3, drop, main + 1, main + 1]
    for stacks, wanted in (
        ((10, 1, 0), ["drop", "make", "main"]),  # that of the access ends at once, that of the malloc in main
        ((5, 0, 0), ["drop", "make", "main", "make"]),  # what has called main is left out
        ((13, 0, 0), ["drop", "make"]),  # 40 frames
        ((16, 0, 0), ["drop", "main", "make"]),  # one after no call
        ((20, 0, 0), ["drop", "make"]),  # two
        ((1, 0, 0), ["drop", "make"]),  # another place's
        ((99, 1 << 31, 0), ["drop", "make"]),  # past the end
    ):
        faults = [fault(drop, 0x2000, 5, make, stacks=stacks)]
        write_trace(folder, "s.trace", OVERFLOW + END, of_program(program, faults, [0, 1], stacks=words))
        text = report(folder, "--trace", "s.trace").out
        frames = re.findall(r"^    #\d 0x[0-9a-f]+ in (\w+) (?!.*\(inlined\))", text, re.M)
        expect(frames, wanted, f"frames of {stacks}")
