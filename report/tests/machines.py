"""Results of many machines: where and when a bug was seen."""

import json
import os
from typing import Any, Dict

from testing import expect, expect_in, expect_not_in
from testing.reports import FORMS, report, report_test

DAY = 86400
START = 1700000000  # 2023-11-14 22:13:20 UTC


def write_result(folder: str, name: str, host: str, began: int, line: int = 7, **more: Any) -> None:
    """Writes what a run on a machine left: one process with one report, as an old release has it too."""
    run: Dict[str, Any] = {"type": "run", "version": 1, "run": 0, "id": name, "command": ["./test"], "seconds": 2,
                           **more}
    if host:
        run["host"] = host
    if began:
        run["time"] = began
    process = {"type": "process", "run": 0, "n": 0, "pid": 7, "fate": "closed", "events": 9, "reports": 1,
               "whole": True}
    frame = {"offset": "10", "function": "use", "file": "/src/a.c", "line": line, "text": "use();"}
    finding = {"type": "finding", "run": 0, "fingerprint": f"{line:016x}", "class": "heap-use-after-free",
               "access": "load", "size": 4, "address": "20", "bad": "20", "count": 3, "processes": 1, "pid": 7,
               "stack": [frame]}
    path = f"{folder}/{name}.jsonl"
    os.makedirs(os.path.dirname(path), exist_ok=True)
    with open(path, "w", encoding="utf-8") as file:
        file.writelines(json.dumps(entry) + "\n" for entry in (run, process, finding))


def write_farm(folder: str) -> None:
    """The bug of line 7 on two machines, three times; that of line 9 once."""
    write_result(folder, "farm/1", "beta", START + DAY)
    write_result(folder, "farm/2", "alpha", START)
    write_result(folder, "farm/deep/3", "beta", START + 2 * DAY)
    write_result(folder, "farm/4", "beta", START + DAY, 9)


SEEN = "  seen in 3 of 4 runs on 2 machines, first 2023-11-14 22:13:20 UTC on alpha\n"


@report_test
def machines_are_counted(folder: str) -> None:
    """Whatever the order of the files is, and if a merged result is merged again."""
    write_farm(folder)
    names = ["farm/1.jsonl", "farm/2.jsonl", "farm/deep/3.jsonl", "farm/4.jsonl"]
    for files in (names, names[::-1]):
        ran = report(folder, *files, "--json", "all.jsonl")
        expect(ran.status, 1, ran.err)
        expect_in(ran.out, SEEN, "  seen in 1 of 4 runs on 1 machine, first 2023-11-15 22:13:20 UTC on beta\n",
                  "(9 times, 3 processes)", "12 reports at 2 places; 4 processes in 4 runs")
        again = report(folder, "all.jsonl", "farm/4.jsonl")
        expect((again.status, again.out), (1, ran.out), "merged again")
    expect_not_in(report(folder, "farm/1.jsonl").out, "seen in")


@report_test
def folders_stand_for_results(folder: str) -> None:
    """A folder is read with those below it; what has another name, or is hidden, is left alone."""
    write_farm(folder)
    for name in ("farm/notes.txt", "farm/.5.jsonl.77", "farm/.6.jsonl"):
        with open(f"{folder}/{name}", "w", encoding="utf-8") as file:
            file.write("no result\n")
    ran = report(folder, "farm")
    expect((ran.status, ran.err), (1, ""), "a folder")
    expect_in(ran.out, SEEN, "in 4 runs")
    expect(report(folder, "farm/1.jsonl", "farm").out.count("processes in 4 runs"), 1, "a file and its folder")
    os.mkdir(f"{folder}/empty")
    ran = report(folder, "empty")
    expect(ran.status, 3, "nothing is there")
    expect_in(ran.out, "0 processes, 0 events; INCOMPLETE")
    with open(f"{folder}/farm/5.jsonl", "w", encoding="utf-8") as file:
        file.write("cut")
    ran = report(folder, "farm")
    expect(ran.status, 4, "a file of the folder was cut")
    expect_in(ran.out, SEEN)


@report_test
def machines_are_in_the_outputs(folder: str) -> None:
    write_farm(folder)
    report(folder, "farm", "--sarif", "out.sarif", "--html", "out.html")
    with open(f"{folder}/out.sarif", encoding="utf-8") as file:
        many, _ = json.load(file)["runs"][0]["results"]
    expect(many["properties"], {"processes": 3, "runs": 3, "runsOfCommand": 4, "machines": ["alpha", "beta"],
                                "machineCount": 2}, "SARIF")
    expect(many["provenance"], {"firstDetectionTimeUtc": "2023-11-14T22:13:20Z",
                                "lastDetectionTimeUtc": "2023-11-16T22:13:20Z"}, "times")
    with open(f"{folder}/out.html", encoding="utf-8") as file:
        expect_in(file.read(), SEEN.strip())


@report_test
def machines_are_left_out(folder: str) -> None:
    """With --no-machines nothing says where and when: two farms that saw the same leave the same."""
    write_farm(folder)
    outputs = []
    for host in ("beta", "gamma"):
        write_result(folder, "farm/1", host, START + len(host))
        ran = report(folder, "farm", "--no-machines", *(f"--{form}={form}" for form in FORMS))
        expect(ran.status, 1, ran.err)
        texts = [ran.out]
        for form in FORMS:
            with open(f"{folder}/{form}", encoding="utf-8") as file:
                texts.append(file.read())
            expect_not_in(texts[-1], "alpha", "beta", "gamma", "2023-11", str(START)[:6])
        expect_in(ran.out, "  seen in 3 of 4 runs\n")
        outputs.append(texts)
    expect(outputs[0], outputs[1], "outputs")
    expect_in(report(folder, "json").out, "  seen in 3 of 4 runs\n")


@report_test
def machines_are_not_known(folder: str) -> None:
    """Results of an old release may have no machine and no time."""
    write_result(folder, "1", "", 0)
    write_result(folder, "2", "", START)
    write_result(folder, "3", "", 0, 9)
    text = report(folder, "1.jsonl", "2.jsonl", "3.jsonl").out
    expect_in(text, "  seen in 2 of 3 runs, first 2023-11-14 22:13:20 UTC\n", "  seen in 1 of 3 runs\n")
    write_result(folder, "4", "a\x1b[2Jb", -1, time=1e300)
    text = report(folder, "1.jsonl", "4.jsonl").out
    expect_in(text, "  seen in 2 runs on 1 machine\n")
    expect_not_in(text, "\x1b")
