"""Processes whose recording goes on in further segments: each is one process in all that is said of it."""

import itertools
import json
import os
import re
import shutil
import signal
from typing import Any, Dict, List, NamedTuple, Sequence, Tuple

from testing import reports, side
from abrupt import killed
from support import (
    CC, REPORT, RUN, SEGMENTED, TOP, Later, Ran, Suite, expect, expect_in, expect_not_in, expect_ran, finish, wait_until
)
from testing.programs import call

BAD = "heap-buffer-overflow: store of 1 byte (2 times, 1 process)"
SEEN = "all complete, 1 ended abruptly"


def run_peer(suite: Suite, words: str, *options: str, **settings: str) -> Ran:
    return suite.run("-v", *options, "--", SEGMENTED, *words.split(), ASANCOL_REPORT=REPORT, **settings)


def check_complete(suite: Suite, folder: str) -> None:
    """They come in any order, and one may still be checked if the next is there."""
    for order in itertools.permutations(["1", "2", "3e"]):
        ran = run_peer(suite, " ".join(order))
        expect_ran(ran, 0, "segmented: complete, 31 events in 3 segments, 0 reports\n",
                   "asancol: no reports; 1 process, 31 events; all complete\n")
    expect_ran(run_peer(suite, "1h 2h 3e"), 0, "no reports; 1 process, 31 events; all complete")
    many = " ".join(str(number) for number in range(1, 40))
    expect_ran(run_peer(suite, f"{many} 40e"), 0, "complete, 401 events in 40 segments, 0 reports", "; 1 process, ")
    expect_ran(run_peer(suite, "1t 2te"), 0, "complete, 21 events in 2 segments", "1 process, 21 events")
    expect_ran(run_peer(suite, "1e"), 0, "complete, 11 events, 0 reports")


def check_used_again(suite: Suite, folder: str) -> None:
    """That freed memory came again is said of the first segment in which it did, and once."""
    path = f"{folder}/result"
    for words in ("1 2r 3re", "3re 2r 1", "1 2r 3e"):
        ran = run_peer(suite, words, "--json", path)
        expect_ran(ran, 0, "./segmented: reused freed memory after 2.0 MB of blocks, so ", absent=["so did"])
        with open(path, encoding="utf-8") as file:
            process = json.loads(file.read().splitlines()[1])
        expect((process["segments"], process["used_again"]), (3, 2000000), words)


INCOMPLETE = {
    "1": "its next segment did not come",
    "1 2": "its next segment did not come",
    "1 2b": "its next segment did not come",
    "1 3e": "its next segment did not come, and later ones did",
    "1t": "its next segment did not come",
    "1 empty": "its next segment did not come",
    "1 2b empty": "its next segment did not come",
    "2 3e": "segment 2 is the first that was seen",
    "2e": "segment 2 is the first that was seen",
    "1 2o 3e": "segment 2: its trace ended as no-close",
    "1 2 3o": "its trace ended as no-close",
    "1 2l 3e": "reached the event limit: 1 of 32 events were not recorded",
    "1 2 3el": "reached the event limit: 1 of 32 events were not recorded",
}


def check_incomplete(suite: Suite, folder: str, words: str, why: str) -> None:
    """Missing and unseen parts are reported, with and without a report."""
    status = 99 if "b" in words else 98
    path = f"{folder}/result"
    for options in ((), ["--json", path]):
        ran = run_peer(suite, words, *options)
        expect_ran(ran, status, f"segmented: INCOMPLETE: {why}\n", "1 process", "1 INCOMPLETE")
    (process,) = lines_of(path, "process")
    expect((process["whole"], process["why"]), (False, why), "JSON")


def check_others(suite: Suite, folder: str) -> None:
    """Another program of the same process is another process, and so is a segment that comes twice."""
    expect_ran(run_peer(suite, "1 2e exec 1 2e"), 0, "no reports; 2 processes, 42 events; all complete")
    expect_ran(run_peer(suite, "1 exec 1 2e"), 98, "its next segment did not come", "2 processes, ", "1 INCOMPLETE")
    expect_ran(run_peer(suite, "1 1 2e"), 98, "its next segment did not come", "2 processes, ", "1 INCOMPLETE")
    expect_ran(run_peer(suite, "1 2e empty"), 98, "it was not recorded, or not by this run", "2 processes, 21 events")
    expect_ran(run_peer(suite, "1 2 2e 3e"), 98, "segment 2 is the first that was seen", "2 processes, ")
    line = f"{SEGMENTED} 1 2 3e & {SEGMENTED} 1 2 3e & wait"
    ran = suite.run("--at-least", "2", "--", "sh", "-c", line)
    expect_ran(ran, 0, "no reports; 2 processes, 62 events; all complete")
    expect_ran(run_peer(suite, "1 2 3e", "--at-least", "2"), 98, "INCOMPLETE: 1 fewer than --at-least asks for")


def check_killed(suite: Suite, folder: str) -> None:
    """A process that is killed in a later segment, or between two."""
    expect_ran(run_peer(suite, "1 2k"), -9, "ended abruptly, by SIGKILL: seen up to there", "1 process, 21 events",
               "all complete, 1 ended abruptly")
    started = suite.start("--", SEGMENTED, "1", "2", "wait")
    expect(started.stdout.readline() if started.stdout else "", "ready\n", "the program")
    started.send_signal(signal.SIGTERM)
    expect_ran(finish(started), 98, "INCOMPLETE: its next segment did not come", "1 process, 21 events")


def lines_of(path: str, kind: str) -> List[Any]:
    with open(path, encoding="utf-8") as lines:
        return [it for it in map(json.loads, lines) if it["type"] == kind]


def check_outputs(suite: Suite, folder: str) -> None:
    """Reports of several segments are those of one process, in each output, and a result that is read again says the
    same."""
    outputs = [f"--{kind}={folder}/{kind}" for kind in ("json", "junit", "sarif", "html")]
    ran = run_peer(suite, "1 2b 3b 4e", *outputs)
    said = "asancol: 4 reports at 1 place; 1 process, 45 events; all complete\n"
    expect_ran(ran, 99, "heap-buffer-overflow: store of 1 byte (4 times, 1 process)", said)
    (process,) = lines_of(f"{folder}/json", "process")
    names = ("events", "reports", "whole", "segments", "fate", "why")
    expect([process[it] for it in names], [45, 4, True, 4, "closed", ""], "the process")
    (finding,) = lines_of(f"{folder}/json", "finding")
    numbers = ("count", "processes", "segment", "event")
    expect([finding[it] for it in numbers], [4, 1, 2, 12], "the finding")
    again = suite.run_argv([REPORT, f"{folder}/json", "--json", f"{folder}/again"])
    expect((again.status, said in again.out), (1, True), again.out)
    for path in ("json", "again"):
        with open(f"{folder}/{path}", encoding="utf-8") as file:
            expect(file.read().count('"segments":4'), 1, path)
    ran = run_peer(suite, "1 2b", *outputs)
    for kind in ("junit", "sarif", "html"):
        with open(f"{folder}/{kind}", encoding="utf-8") as file:
            expect_in(file.read(), "its next segment did not come")


def check_packets(suite: Suite, folder: str) -> None:
    """A packet for each segment that has reports, and one for the process. A segment that is clean has none."""
    packets = suite.packets(folder, "--", SEGMENTED, "1", "2b", "3b", "4e")
    processes = [it for it in packets[1:] if it["type"] == "process"]
    expect([it.get("segment") for it in processes] in ([2, 3, None], [3, 2, None]), True, "segments")
    expect(["verdicts" in it for it in processes], [True, True, False], "packets")
    last = processes[-1]
    expect([last[it] for it in ("n", "events", "reports", "whole", "segments")], [0, 45, 4, True, 4], "the last one")
    expect((processes[0]["whole"], last["whole"]), (False, True), "it is incomplete before its end")
    expect(last["command"], ["./segmented", "1", "2b", "3b", "4e"], "its words")


def check_live(suite: Suite, folder: str) -> None:
    """The first report is printed when its segment has ended."""
    started = suite.start("--live=exit", "--", SEGMENTED, "1", "2b", "wait", "3b", "4e", ASANCOL_REPORT=REPORT)
    line = started.stderr.readline() if started.stderr else ""
    expect_in(line, "ERROR: asancol: heap-buffer-overflow: store of 1 byte")
    started.send_signal(signal.SIGTERM)
    ran = finish(started)
    expect_ran(ran, 99, "INCOMPLETE: its next segment did not come", "2 reports at 1 place; 1 process")


def check_raw(suite: Suite, folder: str) -> None:
    """Without asancol-report the lines of each segment are printed."""
    ran = suite.run("--", SEGMENTED, "1", "2b", "3b", "4e", ASANCOL_REPORT="/proc/none/report")
    expect_ran(ran, 99, "segmented, segment 2:\np0 #12 store 1 at ", "segmented, segment 3:\np0 #12 ",
               "4 reports in 1 process; 1 process, 45 events; all complete")
    many = [f"{number}b" for number in range(1, 30)]
    ran = suite.run("--", SEGMENTED, *many, "30e", ASANCOL_REPORT="/proc/none/report")
    expect_ran(ran, 99, "\nand 18 more lines\n", absent=["processes"])
    # The twenty of which the checkers have ended first: side by side they end in any order.
    shown = re.findall(r", segment (\d+):\n", ran.err)
    expect((len(shown), len(set(shown))), (20, 20), "segments")


def check_nested(suite: Suite, folder: str) -> None:
    """A run inside another one leaves one process."""
    for words, status, said in (("1 2 3e", 0, "1 process in 2 runs, 31 events; all complete"),
                                ("1 2b 3e", 99, "2 reports at 1 place; 1 process in 2 runs, 33 events; all complete"),
                                ("1 2", 98, "1 process in 2 runs, 21 events; 1 INCOMPLETE")):
        ran = suite.run("-v", "--", RUN, "-q", "--", SEGMENTED, *words.split(), ASANCOL_REPORT=REPORT)
        expect_ran(ran, status, said)


def check_files(suite: Suite, folder: str) -> None:
    """Segments in files, as of a process that could not connect."""
    expect_ran(run_peer(suite, "--files 1 2 3e"), 0, "complete, 31 events in 3 segments", "1 process, ")
    expect_ran(run_peer(suite, "--files 1 2b 3e"), 99, BAD, "1 process, 33 events; all complete")
    expect_ran(run_peer(suite, "--files 1 2"), 98, "INCOMPLETE: its next segment did not come", "1 process, ")
    packets = suite.packets(folder, "--json", f"{folder}/x", "--", SEGMENTED, "--files", "1", "2b", "3e")
    expect(packets[-2]["command"][0], "./segmented", "its words")


def traces_in(folder: str) -> List[str]:
    """The names of traces that were kept, in order, each of which has a side file, without the process number."""
    names = os.listdir(folder)
    traces = [it for it in names if it.endswith(".trace")]
    expect(sorted(names), sorted([*traces, *[it + ".where" for it in traces]]), "names")
    return sorted(".".join(word for word in it.split(".") if not word.isdigit()) for it in traces)


THREE = ["segmented.segment-002.trace", "segmented.segment-003.trace", "segmented.trace"]


def check_keep(suite: Suite, folder: str) -> None:
    """All segments are kept if one has a report, or the process was incomplete; and none else."""
    for words, wanted in (("1 2 3e", []), ("3e 2 1", []), ("1 2b 3e", THREE), ("3e 2b 1", THREE), ("1b 2 3", THREE),
                          ("1 2 3o", THREE), ("1 2", [THREE[0], THREE[2]]), ("--files 1 2b 3e", THREE),
                          ("--files 1 2 3e", [])):
        kept = f"{folder}/{words.replace(' ', '-')}"
        run_peer(suite, words, "--keep", kept)
        expect(traces_in(kept), wanted, words)


def check_taken_names(suite: Suite, folder: str) -> None:
    """Existing files stay, and asancol-report is not misled by it."""
    line = f"for it in trace 1.segment-002.trace; do echo > {folder}/segmented.$$.$it; done; exec {SEGMENTED} 1 2b 3e"
    suite.run("--keep", folder, "--", "sh", "-c", line, ASANCOL_REPORT=REPORT)
    names = [it for it in os.listdir(folder) if it.endswith(".trace")]
    wanted = ["1.segment-002.1.trace", "1.segment-002.trace", "1.segment-003.trace", "1.trace", "trace"]
    expect(sorted(it.split(".", 2)[2] for it in names), wanted, "names")
    (first,) = [it for it in names if it.endswith(".1.trace") and "segment-" not in it]
    ran = suite.run_argv([REPORT, "--trace", f"{folder}/{first}"])
    expect_in(ran.out, "2 reports at 1 place; 1 process, 33 events; all complete")


def check_kept_early(suite: Suite, folder: str) -> None:
    """Clean segments are not kept until the end of a long run."""
    line = f"{SEGMENTED} 1 2 3e; exec {SEGMENTED} wait"
    started = suite.start("--keep", folder, "--", "sh", "-c", line, ASANCOL_REPORT=REPORT)
    expect(started.stdout.readline() if started.stdout else "", "ready\n", "the second program")
    wait_until(lambda: not os.listdir(folder), "the end of what was kept")
    started.send_signal(signal.SIGTERM)
    finish(started)


def check_kept_traces(suite: Suite, folder: str) -> None:
    """asancol-report joins them, also if one alone is named."""
    outer = run_peer(suite, "1 2b 3e", "--keep", folder, "--json", f"{folder}/result.jsonl")
    said = "2 reports at 1 place; 1 process, 33 events; all complete\n"
    expect_ran(outer, 99, said)
    traces = sorted(os.path.join(folder, it) for it in os.listdir(folder) if it.endswith(".trace"))
    first = [it["kept"] for it in lines_of(f"{folder}/result.jsonl", "process")]
    expect([it for it in traces if "segment-" not in it], first, "kept")
    for argv in (traces, traces[::-1], *[[it] for it in traces], [*traces, *traces]):
        ran = suite.run_argv([REPORT, "--json", f"{folder}/again.jsonl", "--trace", *argv])
        expect((ran.status, said in ran.out, BAD in ran.out), (1, True, True), ran.out + ran.err)
        (process,) = lines_of(f"{folder}/again.jsonl", "process")
        expect((process["segments"], process["kept"]), (3, first[0]), "JSON")
    os.unlink(next(it for it in traces if "segment-002" in it))
    ran = suite.run_argv([REPORT, "--trace", first[0]])
    expect_in(ran.out, "INCOMPLETE: its next segment did not come, and later ones did", "1 process")


class Trace(NamedTuple):
    """A trace that the checker of these tests knows: its name, its segment, and how that ended."""

    name: str
    segment: int = 1
    ending: int = 5
    fate: str = "closed"
    started: int = 77
    left_out: int = 0


def say(folder: str, traces: Sequence[Trace], *argv: str) -> Ran:
    """Writes traces, and runs asancol-report on some of them, or on all."""
    reports.write_checker(folder)
    for it in traces:
        parts = side.side(ending=it.ending, segment=it.segment, stated=4 * (it.segment > 1), started=it.started,
                           left_out=it.left_out, is_at_limit=it.left_out > 0)
        verdicts = f"p0 end {it.fate} events 9 offset 99 reports 0\n"
        reports.write_trace(folder, it.name, verdicts, parts if it.started else None)
    return reports.report(folder, "--trace", *(argv or [it.name for it in traces]))


FIRST, SECOND, LAST = Trace("a.trace"), Trace("a.segment-002.trace", 2), Trace("a.segment-003.trace", 3, 1)
WITHOUT_SIDES = [Trace("a.trace", started=0), Trace("a.segment-002.trace", started=0)]
CASES: Dict[str, Tuple[List[Trace], List[str], str]] = {
    "all": ([FIRST, SECOND, LAST], [], "1 process, 19 events; all complete"),
    "one named": ([FIRST, SECOND, LAST], ["a.segment-002.trace"], "1 process, 19 events; all complete"),
    "moved": ([FIRST._replace(name="b.trace"), SECOND._replace(name="c.trace"), LAST._replace(name="a.trace")], [],
              "1 process, 19 events; all complete"),
    "taken names": ([FIRST, SECOND._replace(name="a.segment-002.1.trace"), LAST], ["a.trace"], "; all complete"),
    "other ends": ([FIRST._replace(name="a"), LAST._replace(name="a.segment-002", segment=2)], ["a"], "all complete"),
    "one file of another": ([FIRST, SECOND._replace(started=78), LAST], ["a.trace"],
                            "INCOMPLETE: its next segment did not come, and later ones did"),
    "the last is missing": ([FIRST, SECOND], [], "INCOMPLETE: its next segment did not come"),
    "the first is missing": ([SECOND, LAST], [], "INCOMPLETE: segment 2 is the first that was seen"),
    "cut": ([FIRST, SECOND._replace(fate="no-close"), LAST], [],
            "INCOMPLETE: segment 2: its trace ended as no-close"),
    "left out": ([FIRST, SECOND._replace(left_out=3), LAST], [],
                 "INCOMPLETE: reached the event limit: 3 of 22 events were not recorded"),
    "two": ([FIRST, LAST._replace(name="a.segment-002.trace", segment=2), FIRST._replace(name="b.trace", started=78),
             LAST._replace(name="b.segment-002.trace", segment=2, started=78)], [],
            "2 processes, 28 events; all complete"),
    "twice": ([FIRST, FIRST._replace(name="b.trace"), LAST._replace(segment=2)], [],
              "2 processes, 23 events; 1 INCOMPLETE"),
    "killed while the next one began": ([FIRST._replace(ending=0), Trace(SECOND.name, started=0, fate="truncated")],
                                        ["a.trace"], "1 process, 18 events; 1 INCOMPLETE"),
    "an older file of that name": ([FIRST._replace(ending=1), Trace("a.segment-002.trace", started=0)], ["a.trace"],
                                   "1 process, 9 events; all complete"),
    "without side files": (WITHOUT_SIDES, ["a.trace"],
                           "INCOMPLETE: segment 1: its findings and leaks are unknown, since there are no data beside "
                           "its trace: record with ASANCOL_WHERE=1"),
    "without side files, one missing": ([*WITHOUT_SIDES[:1], Trace("a.segment-003.trace", started=0)], ["a.trace"],
                                        "1 process, 18 events; 1 INCOMPLETE"),
}


def check_traces(suite: Suite, folder: str, name: str) -> None:
    traces, argv, said = CASES[name]
    ran = say(folder, traces, *argv)
    expect((ran.status, ran.err), (3 if "INCOMPLETE" in said else 0, ""), ran.out)
    expect_in(ran.out, said)


def check_many_traces(suite: Suite, folder: str) -> None:
    """In a folder of many, each is looked at once."""
    program = [Trace(f"a.segment-{number:03}.trace", number) for number in range(2, 400)]
    ran = say(folder, [FIRST, *program, Trace("a.segment-400.trace", 400, 1)])
    expect_in(ran.out, "1 process, 2004 events; all complete")


def check_lost_reports(suite: Suite, folder: str) -> None:
    """If the reports of a segment did not arrive, no later packet makes the process whole again."""
    feed = reports.Feed(folder)
    feed.begin()
    feed.process(0, segment=1, reports=1, whole=False, why="its next segment did not come")
    feed.process(0, reports=1, segments=2)
    ran = feed.end()
    expect(ran.status, 3, ran.out)
    expect_in(ran.out, "INCOMPLETE: its reports did not arrive", "1 process")


def check_older_results(suite: Suite, folder: str) -> None:
    """A result without these fields is one of processes of one segment."""
    run_peer(suite, "1 2b 3e", "--json", f"{folder}/new")
    with open(f"{folder}/new", encoding="utf-8") as file:
        text = file.read()
    with open(f"{folder}/old", "w", encoding="utf-8") as file:
        file.write(text.replace(',"segments":3', "").replace('"segment":2,', ""))
    ran = suite.run_argv([REPORT, f"{folder}/old", "--json", f"{folder}/again"])
    expect((ran.status, "1 process, 33 events; all complete" in ran.out), (1, True), ran.out)
    with open(f"{folder}/again", encoding="utf-8") as file:
        expect_not_in(file.read(), "segment\"", "segments\"")


def build(compiler: str, program: str) -> None:
    """Builds the recorder's program for this, by this compiler."""
    argv = [CC, "-g", "-O1", "-pthread", f"{TOP}/recorder/tests/segments.c", "-o", program]
    call(argv, check=True, env={**os.environ, "ASANCOL_CC": compiler})


def check_recorded(suite: Suite, folder: str, program: str) -> None:
    """Programs with a small limit: the lines are those of one that never comes to it, except the segments. So they are
    if good mallocs are not recorded, which begins segments only at faults."""
    for words, status, texts in (
        ("blocks 3000 -1", 0, ["no reports; 1 process, 600", " events; all complete"]),
        ("blocks 3000 1700", 99, ["in blocks ", "1 report at 1 place; 1 process, 600", " events; all complete"]),
        ("threads 1000 400", 99, ["in blocks ", "1 report at 1 place; 1 process, ", "all complete"]),
        ("early 2000 0", 99, ["in early ", "9 reports at 9 places; 1 process, ", "all complete"]),
        ("children 1000 -1", 99, ["4 reports at 2 places; 3 processes, ", "all complete"]),
        ("is_killed 1000 0", -9, ["ended abruptly, by SIGKILL: seen up to there", "1 process, ", SEEN]),
    ):
        for limit, full in (("400", "1"), ("1000000", "1"), ("400", "0"), ("1000000", "0")):
            settings = {"ASANCOL_REPORT": REPORT, "ASANCOL_LIMIT": limit, "ASANCOL_FULL": full}
            ran = suite.run("-v", "--leaks=no", "--", program, *words.split(), **settings)
            expect_ran(ran, status, *texts)
            expect(" segments, " in ran.err, (limit, full) == ("400", "1"), f"{words}, {limit}, {full}: segments")


def check_recorded_kills(suite: Suite, folder: str, program: str) -> None:
    """Killed at a moment that nobody chooses: it is one process without a false report, and missing parts are
    reported."""
    for _ in range(20):
        argv = [program, "threads", "1000000", "-1"]
        settings = {"ASANCOL_REPORT": REPORT, "ASANCOL_LIMIT": "2000", "ASANCOL_FULL": "1"}
        status, _, said = killed(suite, argv, 0, 0.1, **settings)
        expect("no reports; " in said and "2 processes" not in said, True, said)
        expect(status, "0" if SEEN in said else "98", said)


def check_recorded_limit(suite: Suite, folder: str, program: str) -> None:
    """Too much is live to begin a segment with it; or there are to be no segments."""
    ran = suite.run("--full", "--leaks=no", "--", program, "many_live", "3000", "0", ASANCOL_LIMIT="500")
    expect_ran(ran, 98, "INCOMPLETE: reached the event limit: ", " of 3002 events were not recorded", "1 process, ")
    ran = suite.run("--leaks=no", "--", program, "blocks", "1000", "-1", ASANCOL_LIMIT="500",
                    ASANCOL_SEGMENTS="0")
    expect_ran(ran, 98, "INCOMPLETE: reached the event limit: ", " of 2002 events were not recorded", "1 process, ")


def check_recorded_traces(suite: Suite, folder: str, program: str) -> None:
    """Traces that were kept, or that the process has left by itself, have the report that the run had."""
    settings = {"ASANCOL_REPORT": REPORT, "ASANCOL_LIMIT": "500", "ASANCOL_FULL": "1"}
    argv = [program, "blocks", "1000", "700"]
    said = "1 report at 1 place; 1 process, 2003 events; all complete\n"
    expect_ran(suite.run("--keep", f"{folder}/kept", "--", *argv, **settings), 99, said, "in blocks ")
    settings.update(ASANCOL_WHERE="1", ASANCOL_LEAKS="1")
    suite.run_argv(argv, cwd=folder, ASANCOL_TRACE="t.trace", **settings)
    suite.run_argv(argv, cwd=folder, ASANCOL_TRACE="newest.trace", ASANCOL_SEGMENTS="2", **settings)
    kept = [f"{folder}/kept/{it}" for it in os.listdir(f"{folder}/kept") if it.endswith(".trace")]
    for traces in (kept, kept[:1], [f"{folder}/t.trace"], [f"{folder}/t.segment-003.trace"]):
        ran = suite.run_argv([REPORT, "--trace", *traces])
        expect((ran.status, said in ran.out, "in blocks " in ran.out), (1, True, True), ran.out + ran.err)
    newest = sorted(it for it in os.listdir(folder) if it.startswith("newest.") and it.endswith(".trace"))
    expect(len(newest), 2, newest)
    ran = suite.run_argv([REPORT, "--trace", f"{folder}/{newest[1]}"])
    expect_in(ran.out, "INCOMPLETE: segment ", " is the first that was seen", "1 process, ")


def check_recorded_files(suite: Suite, folder: str, program: str) -> None:
    """A process that cannot reach the socket leaves its segments in files."""
    line = f"rm $ASANCOL_HUB; exec unshare -rn {program} blocks 1000 700"
    ran = suite.run("-v", "--full", "--", "sh", "-c", line, ASANCOL_REPORT=REPORT, ASANCOL_LIMIT="500")
    expect_ran(ran, 99, "1 report at 1 place; 1 process, 2003 events; all complete", "in blocks ")


def tests(suite: Suite) -> None:
    for compiler in ("gcc", "clang"):
        if shutil.which(compiler) is None:
            continue
        path = f"{suite.folder}/{compiler}-segments"
        program = Later(path, build, compiler, path)
        suite.test(f"{compiler} segments, recorded", check_recorded, program)
        suite.test(f"{compiler} segments, recorded kills", check_recorded_kills, program)
        suite.test(f"{compiler} segments, recorded limit", check_recorded_limit, program)
        suite.test(f"{compiler} segments, recorded traces", check_recorded_traces, program)
        if suite.run_argv(["unshare", "-rn", "true"]).status == 0:
            suite.test(f"{compiler} segments, recorded files", check_recorded_files, program)
    suite.test("segments, complete", check_complete)
    suite.test("segments, used again", check_used_again)
    for words, why in INCOMPLETE.items():
        suite.test(f"segments {words}", check_incomplete, words, why)
    suite.test("segments, others", check_others)
    suite.test("segments, killed", check_killed)
    suite.test("segments, outputs", check_outputs)
    suite.test("segments, packets", check_packets)
    suite.test("segments, live", check_live)
    suite.test("segments, raw", check_raw)
    suite.test("segments, nested", check_nested)
    suite.test("segments, files", check_files)
    suite.test("segments, keep", check_keep)
    suite.test("segments, kept early", check_kept_early)
    suite.test("segments, taken names", check_taken_names)
    suite.test("segments, kept traces", check_kept_traces)
    for name in CASES:
        suite.test(f"segments, traces: {name}", check_traces, name)
    suite.test("segments, many traces", check_many_traces)
    suite.test("segments, lost reports", check_lost_reports)
    suite.test("segments, older results", check_older_results)
