"""Forms for editors and for pages of CI: lines as GCC's, annotations of GitHub, Markdown; and what each level is."""

import json
import os
import re
from typing import Any, Dict, List, Tuple

from crashes import feed_crashes
from testing import expect, expect_in, expect_not_in
from testing.reports import END, FREED, Feed, build, freed_block, one_trace, report, report_test, write_trace
from testing.side import finding, of_program, side

LEAK = 1  # a kind of finding of the recorder


def leaking_trace(folder: str) -> None:
    """A trace with a leak of 3 blocks, and nothing else."""
    program = build(folder)
    parts = of_program(program, [finding(LEAK, program.places["make"], given=(0, 48), count=3)], (), findings=1)
    write_trace(folder, "leak.trace", "p0 end closed events 9 offset 99 reports 0\n", parts)


def without_columns(text: str) -> str:
    return re.sub(r"(program\.c:\d+):\d+:", r"\1:", text)


WANTED_LINES = """\
program.c:14: error: heap-buffer-overflow: store of 1 byte in drop, 0 bytes past the end of a block of 5 bytes
program.c:10: note: block allocated here in make
program.c:7: error: heap-use-after-free: load of 4 bytes in use, byte 0 of a freed block of 16 bytes (3 times, \
1 process)
program.c:14: note: block freed here in drop
program.c:10: note: block allocated here in make
asancol: 4 reports at 2 places; 1 process, 9 events; all complete
SUMMARY: asancol: heap-buffer-overflow program.c:14 in drop
"""


@report_test
def lines_of_gcc(folder: str) -> None:
    """Each line begins with its place, from the current folder on, as an editor follows it."""
    one_trace(folder)
    ran = report(folder, "--trace", "a.trace", "--format=gcc")
    expect((ran.status, ran.err), (1, ""), "status")
    expect(without_columns(re.sub(r"(SUMMARY.*):\d+ in", r"\1 in", ran.out)), WANTED_LINES, "lines")
    expect_in(report(folder, "--trace", "a.trace", "--format=gcc", "--gen-suppressions").out,
              f"note: suppression: at:heap-buffer-overflow:drop@{os.path.basename(folder)}/program.c\n")
    leaking_trace(folder)
    expect_in(without_columns(report(folder, "--trace", "leak.trace", "--format=gcc").out),
              "program.c:10: warning: detected memory leaks: Direct leak of 48 byte(s) in 3 object(s) in make")
    write_trace(folder, "b.trace", FREED + END)
    out = report(folder, "--trace", "b.trace", "--format=gcc").out
    expect_in(out, "asancol: error: heap-use-after-free: load of 4")


@report_test
def crashes_have_lines(folder: str) -> None:
    feed_crashes(folder, "--json", "a.jsonl").end()
    out = without_columns(report(folder, "a.jsonl", "--format=gcc").out)
    expect_in(out, "program.c:7: error: SEGV: ended by SIGSEGV, at address 0x10 in use (2 times, 2 processes)\n")
    found = annotations(report(folder, "a.jsonl", "--format=github").out)
    expect([(it["file"], it["title"]) for it in found],
           [("program.c", "SEGV in use"), ("program.c", "SEGV in drop")], "titles")
    expect_in(found[0]["message"],
              "asancol: 2 processes (101, 102) ./program: ended by SIGSEGV, at address 0x10\n    #0 ")
    out = report(folder, "a.jsonl", "--markdown", "-").out
    expect_in(out, "| error | SEGV: ended by SIGSEGV, at address 0x10 (2 times) | program.c:7",
              "\n```text\nasancol: 2 pro")


def annotations(text: str) -> List[Dict[str, str]]:
    """Reads the lines as the runner of GitHub does."""
    found = []
    for level, words, message in re.findall(r"^::(\w+) (.*?)::(.*)$", text, re.M):
        entry = dict(word.split("=", 1) for word in words.split(","))
        for key, value in entry.items():
            entry[key] = value.replace("%3A", ":").replace("%2C", ",").replace("%0A", "\n").replace("%25", "%")
        message = message.replace("%0D", "\r").replace("%0A", "\n").replace("%25", "%")
        found.append({"level": level, "message": message, **entry})
    return found


@report_test
def annotations_of_github(folder: str) -> None:
    """Each place is one annotation, whose message is the report of the text."""
    one_trace(folder)
    text = report(folder, "--trace", "a.trace", "--source-root", ".").out
    out = report(folder, "--trace", "a.trace", "--format=github").out
    overflow, freed = annotations(out)
    expect((overflow["level"], overflow["file"], overflow["line"], overflow["title"]),
           ("error", "program.c", "14", "heap-buffer-overflow in drop"), "overflow")
    expect((freed["file"], freed["line"], freed["title"]), ("program.c", "7", "heap-use-after-free in use"), "freed")
    expect_in(text, overflow["message"] + "\n", freed["message"] + "\n")
    expect_in(out, "\nasancol: 4 reports at 2 places; 1 process, 9 events; all complete\n")
    leaking_trace(folder)
    (leak,) = annotations(report(folder, "--trace", "leak.trace", "--format=github").out)
    expect((leak["level"], leak["title"]), ("warning", "leak in make"), "leak")


@report_test
def annotations_escape_what_they_name(folder: str) -> None:
    """A name cannot end a property or a command; a file elsewhere is not one of the repository."""
    program = build(folder, "a,b:c%d")
    write_trace(folder, "a.trace", FREED + END, of_program(program, [freed_block(program)], [0, 0, 0, 0, 1]))
    out = report(folder, "--trace", "a.trace", "--format=github").out
    expect_in(out, "::error file=a%2Cb%3Ac%25d.c,line=7,")
    expect(annotations(out)[0]["file"], "a,b:c%d.c", "file")
    expect(len(out.splitlines()), 3, "a line for the report, and two of the summary")
    (elsewhere,) = annotations(report("/", "--trace", f"{folder}/a.trace", "--format=github", "--source-root", "/usr",
                                      ASANCOL=f"{folder}/asancol").out)
    expect_not_in(str(elsewhere), "'file'", "'line'")
    odd = side(argv=["x\r\n::error::y"], ending=2)
    write_trace(folder, "b.trace", "p0 end no-close events 9 offset 9 reports 0\n", odd)
    lines = report(folder, "--trace", "b.trace", "--format=github").out.splitlines()
    expect([line[:34] for line in lines if line.startswith("::")], ["::error title=incomplete::asancol:"], "lines")


@report_test
def github_names_what_is_incomplete(folder: str) -> None:
    feed = Feed(folder, "--format=github")
    feed.begin()
    feed.process(0, whole=False, why="its trace ended as no-close")
    (found,) = annotations(feed.end(troubles=["INCOMPLETE: 2 fewer"]).out)[:1]
    expect((found["level"], found["title"]), ("error", "incomplete"), "level")
    expect_in(found["message"], "INCOMPLETE: its trace ended as no-close")


def sarif_run(folder: str, *argv: str) -> Any:
    return json.loads(report(folder, *argv, "--sarif", "-").out)["runs"][0]


@report_test
def leaks_are_warnings(folder: str) -> None:
    """A leak is no vulnerability: for code scanning it is a warning without a score, and for GitLab minor."""
    leaking_trace(folder)
    run = sarif_run(folder, "--trace", "leak.trace")
    (rule,) = run["tool"]["driver"]["rules"]
    level = rule["defaultConfiguration"]["level"]
    expect((level, rule["properties"].get("security-severity")), ("warning", None), "rule")
    expect_not_in(str(rule["properties"]["tags"]), "'security'")
    expect(run["results"][0]["level"], "warning", "result")
    (entry,) = json.loads(report(folder, "--trace", "leak.trace", "--codequality", "-").out)
    expect((entry["severity"], entry["categories"]), ("minor", ["Bug Risk"]), "Code Quality")
    one_trace(folder)
    for rule in sarif_run(folder, "--trace", "a.trace")["tool"]["driver"]["rules"]:
        level = rule["defaultConfiguration"]["level"]
        expect((level, rule["properties"]["security-severity"]), ("error", "8.0"), "rule")
        is_page = re.fullmatch(r"https://cwe\.mitre\.org/data/definitions/\d+\.html", rule["helpUri"])
        expect(is_page is None, False, rule["helpUri"])
        expect_in(str(rule["properties"]["tags"]), "external/cwe/cwe-")


@report_test
def category_of_sarif(folder: str) -> None:
    """Code scanning replaces what has the same category, which ends with a slash."""
    one_trace(folder)
    expect("automationDetails" in sarif_run(folder, "--trace", "a.trace"), False, "without the option")
    for name in ("gcc", "gcc/"):
        run = sarif_run(folder, "--trace", "a.trace", "--category", name)
        expect(run["automationDetails"], {"id": "gcc/"}, name)


@report_test
def markdown(folder: str) -> None:
    one_trace(folder)
    url = "https://example.com/{file}#L{line}"
    report(folder, "--trace", "a.trace", "--markdown", "out.md", "--source-url", url)
    with open(f"{folder}/out.md", encoding="utf-8") as file:
        text = file.read()
    expect_in(text, "### asancol: 4 reports at 2 places; 1 process, 9 events; all complete\n",
              "| error | heap-use-after-free: load of 4 bytes, byte 0 of a freed block of 16 bytes (3 times) | [",
              "](<https://example.com/program.c#L7>) in use |\n", "<details><summary>heap-use-after-free program.c:7",
              "\n```text\n==7==ERROR: asancol: heap-buffer-overflow: store of 1 byte\n    #0 ", "\n```\n\n</details>\n")
    expect(text.count("<details>"), 2, "reports")
    write_trace(folder, "b.trace", "p0 end no-close events 9 offset 9 reports 0\n",
                side(argv=["<img>|`_*[a](b)#"], ending=2))
    out = report(folder, "--trace", "b.trace", "--markdown", "-").out
    expect_in(out, "INCOMPLETE")
    expect_not_in(out, "<", "|", "`", "_", "*", "[")


@report_test
def colors_are_asked_for(folder: str) -> None:
    """NO_COLOR is stronger than FORCE_COLOR, and an option than both."""
    one_trace(folder)
    cases: List[Tuple[Dict[str, str], List[str], bool]] = [
        ({}, [], False), ({"FORCE_COLOR": "1"}, [], True), ({"FORCE_COLOR": ""}, [], False),
        ({"FORCE_COLOR": "1", "NO_COLOR": "1"}, [], False), ({"NO_COLOR": "1"}, ["--color=always"], True),
        ({"FORCE_COLOR": "1"}, ["--color=never"], False)]
    for settings, argv, has in cases:
        out = report(folder, "--trace", "a.trace", *argv, **settings).out
        expect("\033[" in out, has, f"{settings} {argv}")


@report_test
def seen_in_some_runs(folder: str) -> None:
    """A place that only some runs of a command have is flaky; runs of other commands do not matter."""
    program = build(folder)
    parts = of_program(program, [freed_block(program)], [0, 0, 0, 0, 1])
    for number, command in enumerate((["./t"], ["./t"], ["./t"], ["./other"])):
        feed = Feed(folder, "--json", f"{number}.jsonl")
        feed.begin(f"run-{number}", command)
        feed.process(0, FREED + END if number == 1 else "", parts)
        feed.end()
    ran = report(folder, "0.jsonl", "1.jsonl", "2.jsonl", "3.jsonl", "--sarif", "out.sarif", "--html", "out.html")
    expect_in(ran.out, "  seen in 1 of 3 runs")
    expect_in(report(folder, "1.jsonl", "3.jsonl").out, "  seen in 1 run")
    with open(f"{folder}/out.sarif", encoding="utf-8") as file:
        seen = json.load(file)["runs"][0]["results"][0]["properties"]
    expect((seen["runs"], seen["runsOfCommand"]), (1, 3), "SARIF")
    with open(f"{folder}/out.html", encoding="utf-8") as file:
        expect_in(file.read(), "seen in 1 of 3 runs")
