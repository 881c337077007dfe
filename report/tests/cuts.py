"""Tests of results that are not whole: whatever is missing, nothing is called clean, and the rest is reported."""

import json
import os
import threading
import xml.dom.minidom
from typing import List

from testing import expect, expect_in
from testing.programs import join
from testing.reports import END, FREED, Feed, report, report_test, write_trace


def leave_runs(folder: str) -> List[str]:
    """Makes a result of three runs, in each two processes and a report, and returns its lines."""
    for number in range(3):
        feed = Feed(folder, "--json", f"{number}.jsonl")
        feed.begin(f"run-{number}")
        feed.process(0)
        feed.process(1, FREED.replace("load", ("load", "store", "free")[number]) + END)
        feed.end()
    report(folder, "0.jsonl", "1.jsonl", "2.jsonl", "--json", "all.jsonl")
    with open(f"{folder}/all.jsonl", encoding="utf-8") as file:
        return file.readlines()


def write(folder: str, name: str, text: str) -> None:
    with open(f"{folder}/{name}", "w", encoding="utf-8") as file:
        file.write(text)


@report_test
def cut_at_each_line(folder: str) -> None:
    lines = leave_runs(folder)
    expect(len(lines), 12, "lines")
    for count in range(1, len(lines)):
        write(folder, "cut.jsonl", "".join(lines[:count]))
        ran = report(folder, "cut.jsonl", "--json", "again.jsonl", "--junit", "out.xml", "--sarif", "out.sarif")
        expect(ran.status, 4, f"{count} lines: {ran.out}")
        expect_in(ran.err, "asancol-report: cut.jsonl is cut: it has ")
        expect_in(ran.out, "INCOMPLETE: cut.jsonl is cut: it has ", "; INCOMPLETE\n")
        expect(ran.out.count("ERROR"), sum('"type":"finding"' in line for line in lines[:count]), "reports")
        # Those that are made of it do not forget that.
        (suite,) = xml.dom.minidom.parse(f"{folder}/out.xml").getElementsByTagName("testsuite")
        expect(int(suite.getAttribute("errors")) >= 1, True, "JUnit")
        with open(f"{folder}/out.sarif", encoding="utf-8") as file:
            invocations = json.load(file)["runs"][0]["invocations"]
        expect(invocations[-1]["executionSuccessful"], False, "SARIF")
        again = report(folder, "again.jsonl", "again.jsonl")
        expect((again.status, again.out), (1 if "ERROR" in ran.out else 3, ran.out), "read again")
    write(folder, "cut\x1b.jsonl", "".join(lines)[:-9])
    ran = report(folder, "cut\x1b.jsonl", "0.jsonl")
    expect(ran.status, 4, "within a line")
    expect_in(ran.out, "asancol: cut\\x1b.jsonl: INCOMPLETE: cut\\x1b.jsonl:12: not a result of ",
              "2 reports at 2 places; 6 processes in 3 runs")


@report_test
def cut_beside_its_whole(folder: str) -> None:
    """A whole copy counts, in whatever order both come, and the run of one that is cut is not whole."""
    lines = leave_runs(folder)
    write(folder, "whole.jsonl", "".join(lines[:4]))
    write(folder, "cut.jsonl", lines[0])
    write(folder, "half.jsonl", "".join(lines[:3]))
    for names in (["cut.jsonl", "whole.jsonl"], ["half.jsonl", "cut.jsonl", "whole.jsonl"],
                  ["whole.jsonl", "half.jsonl"]):
        ran = report(folder, *names)
        expect((ran.status, ran.out.count("ERROR")), (4, 1), f"{names}: {ran.out}")
        expect_in(ran.out, "1 report at 1 place; 2 processes")
    report(folder, "cut.jsonl", "1.jsonl", "--junit", "out.xml", "--sarif", "out.sarif", "--json", "out.jsonl")
    suites = xml.dom.minidom.parse(f"{folder}/out.xml").getElementsByTagName("testcase")
    expect([bool(it.getElementsByTagName("error")) for it in suites][0], True, "JUnit")
    with open(f"{folder}/out.sarif", encoding="utf-8") as file:
        expect(json.load(file)["runs"][0]["invocations"][0]["executionSuccessful"], False, "SARIF")
    expect(report(folder, "out.jsonl", "whole.jsonl").out.count("ERROR"), 2, "a whole copy after what was merged")


@report_test
def cut_beside_others(folder: str) -> None:
    """Files one after another in one, runs that are there already, and lines of earlier and later releases."""
    lines = leave_runs(folder)
    for name, text, status, message in (
        ("two in one", "".join(lines) * 2, 1, "6 processes in 3 runs, 54 events; all complete"),
        ("a cut one before a whole one", "".join(lines[:3] + lines), 4, "cut.jsonl is cut: it has 1 of 3 runs"),
        ("a cut one after a whole one", "".join(lines + lines[:5]), 4, "cut.jsonl is cut: it has 2 of 3 runs"),
        ("without a process", "".join(lines[:1] + lines[2:]), 4, "cut.jsonl is cut: it has 1 of 2 processes of run 0"),
        ("without a finding", "".join(lines[:3] + lines[4:]), 4, "cut.jsonl is cut: it has 0 of 1 finding of run 0"),
        ("another type", "".join(lines) + '{"type":"later"}\n', 1, "54 events; all complete"),
    ):
        write(folder, "cut.jsonl", text)
        ran = report(folder, "cut.jsonl")
        expect(ran.status, status, name)
        expect_in(ran.out, message)
        expect_in(report(folder, "all.jsonl", "cut.jsonl").out, message)
    entries = [json.loads(line) for line in lines[:3]]
    for name in ("runs", "processes", "findings"):
        del entries[0][name]
    write(folder, "old.jsonl", "".join(json.dumps(entry) + "\n" for entry in entries))
    expect_in(report(folder, "old.jsonl").out, "no reports; 2 processes, 18 events; all complete")


@report_test
def cut_by_asancol_run(folder: str) -> None:
    """A run that needed no report leaves its messages as they are, and the last one is an end."""
    entries = [{"type": "run", "version": 1, "command": ["true"], "id": "second"},
               {"type": "process", "n": 0, "pid": 5, "events": 4, "whole": True, "command": []},
               {"type": "end", "seconds": 1, "nothing": False}]
    for count, status in ((1, 3), (2, 3), (3, 0)):
        write(folder, "raw.jsonl", "".join(json.dumps(entry) + "\n" for entry in entries[:count]))
        ran = report(folder, "raw.jsonl")
        expect(ran.status, status, f"{count} lines: {ran.out}")


@report_test
def odd_files(folder: str) -> None:
    """What a folder lists is read if it is a regular file, and else named; no line is read without a bound."""
    lines = leave_runs(folder)
    os.makedirs(f"{folder}/odd")
    write(folder, "odd/0.jsonl", "".join(lines))
    os.mkfifo(f"{folder}/odd/1.jsonl")
    os.symlink("/dev/zero", f"{folder}/odd/2.jsonl")
    os.symlink("../2.jsonl", f"{folder}/odd/3.jsonl")
    os.symlink("nowhere", f"{folder}/odd/4.jsonl")
    write(folder, "odd/5.jsonl", "")
    os.truncate(f"{folder}/odd/5.jsonl", 1 << 40)
    ran = report(folder, "odd")
    expect(ran.status, 4, ran.out)
    expect_in(ran.err, "odd/1.jsonl: not a regular file", "odd/2.jsonl: not a regular file",
              "odd/4.jsonl: No such file", "odd/5.jsonl:1: a line of more than 67108864 characters")
    expect_in(ran.out, "3 reports at 3 places; 6 processes in 3 runs", "odd/1.jsonl: INCOMPLETE: ")
    # By its own name a pipe is read.
    os.mkfifo(f"{folder}/pipe")
    writer = threading.Thread(target=write, args=(folder, "pipe", "".join(lines)), daemon=True)
    writer.start()
    expect_in(report(folder, "pipe").out, "3 reports at 3 places; 6 processes in 3 runs")
    join(writer, "who writes")


@report_test
def cut_baselines(folder: str) -> None:
    """Findings may be taken out of a baseline. Then they are new."""
    lines = leave_runs(folder)
    write(folder, "known.jsonl", "".join(lines[:-1]))
    ran = report(folder, "all.jsonl", "--baseline", "known.jsonl")
    expect((ran.status, ran.err), (1, ""), "one is new")
    expect_in(ran.out, "1 report at 1 place, 2 places known from the baseline")


@report_test
def others_are_reported(folder: str) -> None:
    """A file that can't be read costs no report of the others."""
    leave_runs(folder)
    ran = report(folder, "missing.jsonl", "1.jsonl", "--json", "all.jsonl")
    expect((ran.status, ran.err), (4, "asancol-report: missing.jsonl: No such file or directory\n"), "results")
    expect_in(ran.out, "store of 4 bytes", "INCOMPLETE: missing.jsonl: No such file or directory", "INCOMPLETE")
    expect(report(folder, "all.jsonl").status, 1, "merged")
    write_trace(folder, "a.trace", FREED + END)
    ran = report(folder, "--trace", "missing.trace", "a.trace")
    expect((ran.status, ran.err), (4, "asancol-report: missing.trace: No such file or directory\n"), "traces")
    expect_in(ran.out, "load of 4 bytes", "INCOMPLETE: missing.trace: No such file or directory", "INCOMPLETE")
    os.unlink(f"{folder}/1.jsonl")
    ran = report(folder, "missing.jsonl", "1.jsonl", "--json", "none.jsonl")
    expect((ran.status, ran.out, os.path.exists(f"{folder}/none.jsonl")), (4, "", False), "no file is there")


@report_test
def results_are_renewed(folder: str) -> None:
    """A result may be merged into its own file, and a baseline renewed in its own. An output is written over."""
    leave_runs(folder)
    ran = report(folder, "0.jsonl", "1.jsonl", "--json", "0.jsonl")
    expect((ran.status, ran.err), (1, ""), ran.out)
    expect_in(report(folder, "0.jsonl").out, "2 reports at 2 places; 4 processes in 2 runs, 36 events; all complete")
    ran = report(folder, "all.jsonl", "--baseline", "0.jsonl", "--json", "0.jsonl")
    expect_in(ran.out, "1 report at 1 place, 2 places known from the baseline")
    expect(report(folder, "all.jsonl", "--baseline", "0.jsonl").status, 0, "the renewed baseline")
    report(folder, "2.jsonl", "--json", "0.jsonl", "--html", "/dev/null", "--sarif", "/dev/null")
    expect_in(report(folder, "0.jsonl").out, "1 report at 1 place; 2 processes, 18 events; all complete")
