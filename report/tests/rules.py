"""Suppressions and baselines."""

import json
import os
import re

from testing import expect, expect_in, expect_not_in, write_text
from testing.reports import END, FREED, Feed, build, one_trace, report, report_test, write_trace
from testing.side import fault, of_program
from asancol_report.words import plural


@report_test
def suppressions(folder: str) -> None:
    one_trace(folder)
    report(folder, "--trace", "a.trace", "--json", "a.jsonl")
    generated = re.findall("suppression: (.*)", report(folder, "a.jsonl", "--gen-suppressions").out)
    file = f"{os.path.basename(folder)}/program.c"
    expect(generated, [f"at:heap-buffer-overflow:drop@{file}", f"at:heap-use-after-free:use@{file};main@{file}"],
           "generated")
    for rules, status, text in (
        ("\n".join(generated), 0, "no reports, 4 suppressed;"),
        ("\n".join(f"  suppression: {it}" for it in generated), 0, "no reports, 4 suppressed;"),
        ("# a comment\n\nheap-use-after-free:use\n", 1, "1 report at 1 place, 3 suppressed;"),
        ("heap-use-after-free:^make$\n", 1, "3 suppressed"),
        ("fun:dr*p\n", 0, "4 suppressed"),
        ("src:*program.c\n", 0, "4 suppressed"),
        ("src:^program.c\n", 1, "a suppression matched nothing: src:^program.c"),
        ("obj:/program$\n", 0, "4 suppressed"),
        ("*:^us\n", 1, "3 suppressed"),
        ("double-free:use\n", 1, "a suppression matched nothing: double-free:use"),
        ("fun:^.$\n", 1, "4 reports at 2 places"),
        # The frames of the access, from the innermost on. Others do not count.
        ("at:heap-use-after-free:use@program.c\n", 1, "3 suppressed"),
        ("at:heap-use-after-free:use\n", 1, "3 suppressed"),
        ("at:*:u*;@program.c\n", 1, "3 suppressed"),
        ("at:*:*@*/program.c\n", 0, "4 suppressed"),
        ("at:*:us@program.c\n", 1, "4 reports at 2 places"),
        ("at:*:use@gram.c\n", 1, "4 reports at 2 places"),
        ("at:*:main@program.c\n", 1, "4 reports at 2 places"),
        ("at:*:use;main;main\n", 1, "4 reports at 2 places"),
        ("at:*:make@program.c\n", 1, "4 reports at 2 places"),
        ("at:heap-buffer-overflow:use@program.c\n", 1, "4 reports at 2 places"),
    ):
        write_text(f"{folder}/rules", rules)
        ran = report(folder, "a.jsonl", "--suppressions", "rules")
        expect(ran.status, status, rules)
        expect_in(ran.out, text)
    for rule in ("heap:x", "nothing", "fun:", "memory-leak:x", "at:", "at:*:", "at:heap:f@x.c", "at:*:f;;g", "at:*:@"):
        write_text(f"{folder}/rules", f"# one\n{rule}\n")
        ran = report(folder, "a.jsonl", "--suppressions=rules")
        expect((ran.status, ran.out), (2, ""), rule)
        expect_in(ran.err, f"asancol-report: rules:2: {rule}: ")
    expect(report(folder, "a.jsonl", "--suppressions", "missing").status, 4, "missing")


@report_test
def suppressions_of_callers(folder: str) -> None:
    """A suppression of one caller leaves the events of others at the same place, whichever came first."""
    program = build(folder)
    use, make, drop = (program.places[name] for name in ("use", "make", "drop"))
    lines = FREED + FREED.replace("#5", "#6") + FREED.replace("#5", "#7") + END
    for order in ((1, 4, 1), (4, 1, 4)):
        faults = [fault(drop, 0x2000, 16, make, make, stacks=(number, 0, 0)) for number in order]
        parts = of_program(program, faults, [0, 0, 0, 0, 1, 2, 3], stacks=[0, 2, drop, use, 2, drop, make])
        write_trace(folder, "c.trace", lines, parts)
        expect_in(report(folder, "--trace", "c.trace").out, "3 reports at 1 place;")
        write_text(f"{folder}/rules", "heap-use-after-free:^use$\n")
        known = order.count(1)
        ran = report(folder, "--trace", "c.trace", "--suppressions=rules", "--json", "c.jsonl")
        expect_in(ran.out, plural(3 - known, "report") + f" at 1 place, {known} suppressed;", " in make ")
        expect_in(report(folder, "c.jsonl", "--suppressions=rules").out, f"at 1 place, {known} suppressed;")
        expect_in(report(folder, "c.jsonl").out, "3 reports at 1 place;")


@report_test
def suppressions_of_calls(folder: str) -> None:
    """Calls of the C library, by who has called: the innermost frame, or any. Other accesses are none."""
    one_trace(folder)
    report(folder, "--trace", "a.trace", "--json", "a.jsonl")
    with open(f"{folder}/a.jsonl", encoding="utf-8") as file:
        entries = [json.loads(line) for line in file]
    called = next(it for it in entries if it.get("class") == "heap-use-after-free")
    called["call"] = "strcpy"
    called["stack"].insert(0, {**called["stack"][0], "function": "copy_text", "module": "/opt/libplain.so.1"})
    with open(f"{folder}/calls.jsonl", "w", encoding="utf-8") as file:
        file.writelines(json.dumps(it) + "\n" for it in entries)
    for rule, suppressed in (
        ("called_from_lib:libplain.so", 3),
        ("called_from_lib:/program$", 0),
        ("interceptor_via_lib:libplain.so", 3),
        ("interceptor_via_lib:/program$", 3),
        ("interceptor_via_fun:^copy_text$", 3),
        ("interceptor_via_fun:^main$", 3),
        ("interceptor_via_fun:^drop$", 0),
        ("interceptor_name:^strcpy$", 3),
        ("interceptor_name:str*", 3),
        ("interceptor_name:strlen", 0),
        ("alloc_dealloc_mismatch:main", 0),
    ):
        with open(f"{folder}/rules", "w", encoding="utf-8") as file:
            file.write(rule + "\n")
        ran = report(folder, "calls.jsonl", "--suppressions", "rules")
        expect_in(ran.out, "3 suppressed;" if suppressed else f"a suppression matched nothing: {rule}")


@report_test
def baseline(folder: str) -> None:
    one_trace(folder)
    report(folder, "--trace", "a.trace", "--json", "a.jsonl")
    ran = report(folder, "a.jsonl", "--baseline", "a.jsonl", "--json", "b.jsonl")
    expect(ran.status, 0, "all are known")
    expect_in(ran.out, "no reports, 2 places known from the baseline; ")
    expect_not_in(ran.out, "ERROR")
    with open(f"{folder}/a.jsonl", encoding="utf-8") as file:
        lines = file.readlines()
    with open(f"{folder}/less.jsonl", "w", encoding="utf-8") as file:
        file.writelines(lines[:-1])
    ran = report(folder, "a.jsonl", "--baseline", "less.jsonl")
    expect(ran.status, 1, "one is new")
    expect_in(ran.out, "3 reports at 1 place, 1 place known from the baseline")
    ran = report(folder, "less.jsonl", "--baseline", "a.jsonl")
    expect_in(ran.out, "1 place of the baseline not seen in this run")
    expect(report(folder, "a.jsonl", "--baseline", "missing").status, 4, "no baseline")


@report_test
def run_has_bad_rules(folder: str) -> None:
    """A mistake there is printed at once, and unused rules after the summary. The others are used, also of the same
    file."""
    feed = Feed(folder, "--json", "known.jsonl")
    feed.begin()
    feed.process(0, FREED + END)
    feed.end()
    with open(f"{folder}/first", "w", encoding="utf-8") as file:
        file.write("# one\ndouble-free:x\nnon\x1bsense\nheap-use-after-free:not there\n")
    with open(f"{folder}/second", "w", encoding="utf-8") as file:
        file.write("bad-free:y\n")
    feed = Feed(folder, "--suppressions", "first", "--suppressions", "none", "--suppressions", "second",
                "--baseline", "known.jsonl")
    feed.begin("run-2")
    feed.process(0, FREED + END)
    feed.process(1, FREED.replace("load", "store") + END)
    ran = feed.end()
    expect(ran.status, 4, ran.out)
    lines = [
        "first:3: non\\x1bsense: not CLASS:PATTERN, *:PATTERN, fun:PATTERN, src:PATTERN, obj:PATTERN, "
        "called_from_lib:PATTERN or at:CLASS:FUNCTION@FILE",
        "none: No such file or directory",
    ]
    expect(ran.err, "".join(f"asancol-report: {line}\n" for line in lines), "at once")
    summary = ran.out.partition("asancol: 1 report at 1 place, 1 place known from the baseline")[2]
    expect_in(summary, "\nasancol: first:3 was not used\n", "\nasancol: none was not used\n",
              "nothing: double-free:x", "nothing: heap-use-after-free:not there", "nothing: bad-free:y")
    expect_not_in(ran.out, *lines)


@report_test
def run_has_a_bad_baseline(folder: str) -> None:
    """Its line is named once, in the text and in the result."""
    with open(f"{folder}/known.jsonl", "w", encoding="utf-8") as file:
        file.write('{"type":"note","text":"x"}\nnonsense\n')
    feed = Feed(folder, "--baseline", "known.jsonl", "--json", "out.jsonl")
    feed.begin()
    feed.process(0, FREED + END)
    ran = feed.end()
    line = "known.jsonl:2: not a result of asancol-report --json"
    expect((ran.status, ran.err), (4, f"asancol-report: {line}\n"), "at once")
    expect_in(ran.out, "; all complete\nasancol: known.jsonl was not used\n")
    expect_not_in(ran.out, "not a result")
    with open(f"{folder}/out.jsonl", encoding="utf-8") as file:
        expect([it["text"] for it in map(json.loads, file) if it["type"] == "note"],
               [f"{line}; it was not used"], "the result")


@report_test
def suppressions_of_address_sanitizer(folder: str) -> None:
    """All kinds of lines that it knows are read. A class of its own name is ours."""
    one_trace(folder)
    report(folder, "--trace", "a.trace", "--json", "a.jsonl")
    write_text(f"{folder}/rules", "# ours\nodr_violation:^table$\ninterceptor_name:use\nleak:main\nfun:dr*p\n")
    ran = report(folder, "a.jsonl", "--suppressions", "rules")
    expect_in(ran.out, "no reports, 4 suppressed;", "matched nothing: interceptor_name:use",
              "matched nothing: leak:main", "matched nothing: odr_violation:^table$")
