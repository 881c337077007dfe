"""What asancol-report is given, and what happens without it; the log, and traces that are kept."""

import json
import os
import signal
import time
from typing import Any, Dict, List

from support import FAKE_REPORT, RUN, SEGMENTED, Failure, Suite, expect, expect_ran, finish, read_packets, write_text


def check_packets(suite: Suite, folder: str) -> None:
    """A run, its processes, each when its check has ended, and the end."""
    line = f"{suite.program} sound; {suite.program} past 3; exit 5"
    argv, run, *processes, end = suite.packets(folder, "--", "sh", "-c", line)
    sound, past = sorted(processes, key=lambda it: it["n"])
    expect(argv[0], "--run", "words")
    expect((run["type"], run["version"], run["command"]), ("run", 1, ["sh", "-c", line]), "run")
    expect(sorted(run), ["command", "directory", "host", "id", "time", "type", "version"], "run")
    names = ("type", "n", "fate", "events", "reports", "whole")
    expect([sound[it] for it in names], ["process", 0, "closed", 2, 0, True], "process")
    expect(sound["command"], [suite.program, "sound"], "its command")
    expect([past[it] for it in ("n", "reports", "whole", "left_out", "why")], [1, 3, True, 0, ""], "process")
    expect((len(past["verdicts"]), past["side"]), (4, "ASWH"), "what came with it")
    expect(past["parent"], sound["parent"], "parent")
    wanted = {"type": "end", "status": 5, "signal": 0, "nothing": False, "missing": 0, "running": False}
    expect({name: end[name] for name in wanted}, wanted, "end")


def check_second_message(suite: Suite, folder: str) -> None:
    """The omitted part grows after the end of the check: a second message says it."""
    argv = ["--json", f"{folder}/x", "--", suite.program, "many", "10000"]
    packets = suite.packets(folder, *argv, ASANCOL_LIMIT="5000", ASANCOL_SEGMENTS="0")
    of_process = [it for it in packets[1:] if it["type"] == "process"]
    last = of_process[-1]
    expect((last["n"], last["whole"], last["left_out"]), (0, False, 15003), "the last message")
    why = "reached the event limit: 15003 of 20003 events were not recorded, since ASANCOL_SEGMENTS is 0"
    expect(last["why"], why, "why")


def check_words(suite: Suite, folder: str) -> None:
    """Names are expanded, and reach the report from the root. A file that is given twice reaches it once."""
    for name in ("known", "more"):
        write_text(f"{folder}/{name}", "")
    argv = ["--suppressions", "known", "--suppressions=known", "--suppressions=more", "--baseline", f"{folder}/known"]
    argv += ["--gen-suppressions", "--color", "never", "--live=exit", "--source-root", ".", "-q"]
    argv += ["--html", "of-%q{WHO}-%%", "--source-url=https://x/a%20b/{file}#L{line}"]
    packets = f"{folder}/packets"
    suite.run(*argv, "--", suite.program, "past", cwd=folder, WHO="me", FAKE_PACKETS=packets)
    given = read_packets(packets)[0]
    here = os.path.realpath(folder)
    expect([given.count(it) for it in (f"{here}/known", "--suppressions", "--baseline")], [2, 2, 1], "files")
    expect(given[given.index("--html") + 1], f"{here}/of-me-%", "html")
    expect(given[given.index("--source-url") + 1], "https://x/a%20b/{file}#L{line}", "the addresses of sources")
    for word in ("--gen-suppressions", "--live", "--color", "--source-root", "--quiet"):
        expect(word in given, True, word)


def check_bytes(suite: Suite, folder: str) -> None:
    """Words that are no UTF-8, and characters that JSON escapes."""
    odd = os.fsdecode(b"a\"\\\n\xff\xc3\xa9\xed\xa0\x80\xf4\x90\x80\x80\x7f")
    packets = suite.packets(folder, "--json", f"{folder}/x", "--", suite.program, "past", "1", odd)
    expect(packets[1]["command"][-1], odd, "of the run")
    expect(packets[2]["command"][-1], odd, "of the process")


def check_long_words(suite: Suite, folder: str) -> None:
    """A packet stays small."""
    packets = suite.packets(folder, "--json", f"{folder}/x", "--", suite.program, "past", "1", *["word" * 1000] * 40)
    expect(packets[1]["command"][:3], [suite.program, "past", "1"], "of the run")
    expect(packets[2]["reports"], 1, "reports")


FAILING: Dict[str, List[str]] = {
    "dies": ["asancol-report ended with status 77"],
    "hangs-up": ["asancol-report ended with status 0, and did not read all"],
    "killed": ["asancol-report was ended by SIGKILL"],
    "2": ["asancol-report ended with status 2"],
    "50": ["asancol-report ended with status 50"],
}


def check_failing_report(suite: Suite, folder: str, way: str, texts: List[str]) -> None:
    """What the checkers have printed is shown, and a report is a report."""
    ran = suite.run("--", suite.program, "past", "100", FAKE=way)
    expect_ran(ran, 99, *texts, "p0 #3 store 1 at ", "and 80 more lines", "--keep DIR keeps the traces")
    expect(ran.err.count("p0 #"), 20, "lines")
    ran = suite.run("--json", f"{folder}/x", "--", suite.program, "sound", FAKE=way)
    expect_ran(ran, 98, "1 process")


def check_missing_report(suite: Suite, folder: str) -> None:
    for report in ("/proc/none/report", "/etc/passwd"):
        ran = suite.run("--", suite.program, "past", ASANCOL_REPORT=report)
        expect_ran(ran, 99, f"asancol-run: {report}: ", "p0 #3 store 1 at ")
        expect_ran(suite.run("--", suite.program, "sound", ASANCOL_REPORT=report), 0)
    line = f"i=0; while [ $i -lt 30 ]; do {suite.program} past; i=$((i+1)); done"
    ran = suite.run("--", "sh", "-c", line, ASANCOL_REPORT="/proc/none/report")
    expect_ran(ran, 99, "and 10 more processes with reports")
    expect(ran.err.count("p0 #"), 20, "processes")


def check_report_that_stays(suite: Suite, folder: str) -> None:
    """A report that does not end is ended by a signal to asancol-run."""
    started = suite.start("--", suite.program, "past", FAKE="stays")
    time.sleep(4)  # the process waits for its report, too
    started.send_signal(signal.SIGTERM)
    expect_ran(finish(started), 99, "p0 #3 store 1 at ")


def check_answers(suite: Suite, folder: str) -> None:
    """The report's status decides: it knows the suppressions."""
    for answer, status in (("0", 5), ("1", 99), ("3", 98), ("4", 99)):
        ran = suite.run("--", "sh", "-c", f"{suite.program} past; exit 5", FAKE=answer)
        expect_ran(ran, status, "the report", absent=["p0 #"])
    ran = suite.run("--json", f"{folder}/x", "--", suite.program, "sound", FAKE="4")
    expect_ran(ran, 98, "the report")


def check_report_starts_early(suite: Suite, folder: str) -> None:
    """It is there from the first report on, while the command runs."""
    packets = f"{folder}/packets"
    started = suite.start("--", "sh", "-c", f"{suite.program} past; sleep 30", FAKE_PACKETS=packets)
    end = time.monotonic() + 20
    while not (os.path.exists(packets) and len(read_packets(packets)) > 2):
        if time.monotonic() > end:
            raise Failure("the packets did not come")
        time.sleep(0.05)
    started.send_signal(signal.SIGTERM)
    expect_ran(finish(started), 99)


def check_log(suite: Suite, folder: str) -> None:
    for word, status, text in (("sound", 0, "all complete"), ("past", 99, "the report")):
        ran = suite.run("--log-file", "%q{WHO}-%p.log", "--", suite.program, word, cwd=folder, WHO="me")
        expect((ran.status, ran.err), (status, ""), word)
        (name,) = os.listdir(folder)
        with open(f"{folder}/{name}", encoding="utf-8") as log:
            expect(text in log.read(), True, name)
        expect(name.split("-")[0], "me", "name")
        expect(name.split("-")[1].split(".")[0].isdigit(), True, name)
        os.unlink(f"{folder}/{name}")


def check_full_log(suite: Suite, folder: str) -> None:
    """What cannot be written is not called clean."""
    expect(suite.run("--log-file", "/dev/full", "--", suite.program, "sound").status, 98, "a line is lost")
    expect(suite.run("-q", "--log-file", "/dev/full", "--", suite.program, "sound").status, 0, "no line")
    expect(suite.run("--log-file", "/dev/full", "--", suite.program, "past", FAKE="4").status, 99, "a report")
    expect(suite.run("--incomplete-exitcode=7", "--log-file=/dev/full", "--", suite.program, "sound").status, 7, "7")


def check_closed_log(suite: Suite, folder: str) -> None:
    """A pipe without a reader ends nothing."""
    line = f"{{ {RUN} -- sh -c '{suite.program} sound; exit 5'; echo $? > {folder}/status; }} 2>&1 | true"
    suite.run_argv(["sh", "-c", line])
    with open(f"{folder}/status", encoding="utf-8") as status:
        if status.read() not in ("5\n", "98\n", "141\n"):
            raise Failure("another status")


def check_keep(suite: Suite, folder: str) -> None:
    """Traces of processes with a report, or incomplete, stay. Those of others go, also after an abrupt end."""
    kept = f"{folder}/kept"
    line = f"{suite.program} sound; {suite.program} past; {suite.program} kills_itself 9; {SEGMENTED} 1"
    packets = suite.packets(folder, "--keep", kept, "--", "sh", "-c", line)
    names = sorted(os.listdir(kept))
    expect(len(names), 4, names)
    last = {it["n"]: it for it in packets[1:] if it["type"] == "process"}
    paths = [it["kept"] for it in last.values() if "kept" in it]
    expect(sorted(os.path.basename(it) for it in paths), [it for it in names if it.endswith(".trace")], "names")
    (past,) = [it["kept"] for it in packets[1:] if it.get("reports")]
    checked = suite.run_argv([suite.asancol, "check", past])
    expect(checked.status, 1, checked.out)
    with open(past + ".where", "rb") as where:
        expect(where.read(5), b"ASWH\5", "side memory")
    seen = os.stat(past + ".where")
    if seen.st_blocks * 512 > seen.st_size // 2:
        raise Failure("the side memory is no sparse file")


def check_keep_names(suite: Suite, folder: str) -> None:
    """An exec keeps the number of the process, so that the name is taken."""
    suite.run("--keep", folder, "--", suite.program, "execs", suite.program, "past")
    suite.run("--keep", folder, "--", suite.program, "past_and_sleeps", "0")
    traces = [it for it in os.listdir(folder) if it.endswith(".trace")]
    expect([it.split(".")[0] for it in traces], ["programs", "programs"], "names")


def check_keep_beside_links(suite: Suite, folder: str) -> None:
    """A link that somebody has put where what stands beside a trace goes is not followed."""
    line = f"ln -s {folder}/other {folder}/programs.$$.trace.where; exec {suite.program} past"
    with open(f"{folder}/other", "w", encoding="utf-8") as file:
        file.write("mine")
    expect(suite.run("--keep", folder, "--", "sh", "-c", line).status, 99, "status")
    with open(f"{folder}/other", encoding="utf-8") as file:
        expect(file.read(), "mine", "the other file")
    beside = [it for it in os.listdir(folder) if it.endswith(".where")]
    expect([os.path.islink(f"{folder}/{it}") for it in beside], [False], "what stands beside the trace")


def check_keep_on_full_disk(suite: Suite, folder: str) -> None:
    """A trace that cannot be kept is checked all the same."""
    line = (
        f"mount -t tmpfs -o size=64k,nr_inodes=4 none {folder} && dd if=/dev/zero of={folder}/x bs=4k 2>/dev/null; "
        f"exec {RUN} --keep {folder} -- {suite.program} past 5000"
    )
    expect_ran(suite.run_argv(["unshare", "-rm", "sh", "-c", line]), 99, "not all of the trace could be kept")


def check_live_is_passed(suite: Suite, folder: str) -> None:
    packets: List[Any] = suite.packets(folder, "--live=exit", "--", suite.program, "past")
    expect("--live" in packets[0], True, json.dumps(packets[0]))
    expect(os.access(FAKE_REPORT, os.X_OK), True, "the fake report")


def tests(suite: Suite) -> None:
    suite.test("packets", check_packets)
    suite.test("second message", check_second_message)
    suite.test("words of the report", check_words)
    suite.test("bytes", check_bytes)
    suite.test("long words", check_long_words)
    for way, texts in FAILING.items():
        suite.test(f"report {way}", check_failing_report, way, texts)
    suite.test("report is missing", check_missing_report)
    suite.test("report stays", check_report_that_stays)
    suite.test("answers of the report", check_answers)
    suite.test("report starts early", check_report_starts_early)
    suite.test("log", check_log)
    suite.test("full log", check_full_log)
    suite.test("closed log", check_closed_log)
    suite.test("keep", check_keep)
    suite.test("keep, names", check_keep_names)
    suite.test("keep, links", check_keep_beside_links)
    suite.test("live", check_live_is_passed)
    if suite.run_argv(["unshare", "-rm", "true"]).status == 0:
        suite.test("keep, full disk", check_keep_on_full_disk)
