"""Processes and signals: some outlive the command, are killed, stopped or left behind."""

import os
import pty
import signal
import subprocess
import time
from typing import List

from support import RUN, Failure, Ran, Suite, expect, expect_in, expect_ran, finish, leave_out, wait_until
from testing.programs import PATIENCE, Started, call, killed_after


def check_orphan(suite: Suite, folder: str, way: str) -> None:
    """A process that outlives the command is waited for."""
    expect_ran(suite.run("--", suite.program, way, "0.7", FAKE="1"), 99)


def check_orphan_for_too_long(suite: Suite, folder: str) -> None:
    begun = time.monotonic()
    ran = suite.run("--wait", "0.5", "--", "sh", "-c", f"{suite.program} orphan 3 > /dev/null 2>&1")
    expect_ran(ran, 98, "INCOMPLETE: was still running at the end of asancol-run", "processes of the command still run")
    if time.monotonic() - begun > 2.5:
        raise Failure("it has waited")


def check_cut_process_runs_on(suite: Suite, folder: str) -> None:
    """A truncated one is not harmed."""
    mark = f"{folder}/ran-on"
    line = f"({suite.program} sleeps 1; touch {mark}) > /dev/null 2>&1 &"
    expect_ran(suite.run("--wait", "0.2", "--", "sh", "-c", line), 98, "was still running at the end")
    wait_until(lambda: os.path.exists(mark), "the end of the process")


# What a shell starts before it becomes asancol-run: a child; one that leaves its children to their grandparent while
# the run goes on; and what reads an output. Then the command, and the status of the run.
INHERITED = {
    "a child": ("sleep 9 & exec RUN -- PROGRAM sound", 0),
    "children left to us": ("(sleep 0.2; (sleep 9 &)) & exec RUN -- sh -c 'PROGRAM sound; sleep 0.5'", 0),
    "a reader of a pipe": ("exec 5> >(sleep 9); exec RUN --json /dev/fd/5 -- PROGRAM sound", 0),
    "beside what the command left": ("sleep 9 & exec RUN --wait 0.5 -- sh -c 'PROGRAM sound; sleep 9 &'", 98),
    "spared by --timeout": ("sleep 9 & exec RUN --timeout 0.2 -- sleep 9", 98),
}


def check_inherited(suite: Suite, folder: str, line: str, status: int, of: str) -> None:
    """Only what the command has started is waited for, also if asancol-run has the number 1 of a namespace."""
    begun = time.monotonic()
    words = line.replace("RUN", RUN).replace("PROGRAM", suite.program)
    with open(f"{folder}/err", "wb") as error:  # no pipe: the rest would keep it open
        command = [*of.split(), "bash", "-c", f"{words} > /dev/null"]
        ran = call(command, env=suite.environment(), stderr=error, check=False, timeout=60)
    with open(f"{folder}/err", encoding="utf-8") as error:
        text = error.read()
    expect((ran.returncode, "processes of the command still run" in text), (status, "--wait" in line), text)
    expect(time.monotonic() - begun < 4, True, "that it does not wait for others")


def check_hurry(suite: Suite, folder: str) -> None:
    """Once the command has ended, a signal ends the waiting."""
    started = suite.start("--wait", "60", "--", suite.program, "orphan", "30")
    time.sleep(0.6)
    started.send_signal(signal.SIGTERM)
    expect_ran(finish(started), 98, "was still running at the end")


def check_group_signal(suite: Suite, folder: str) -> None:
    """Sent to the process and to its group, as `timeout` does, it is one: earlier findings are still reported."""
    argv = ["timeout", "-s", "TERM", "0.7", RUN, "--", suite.program, "past_and_sleeps", "30"]
    for _ in range(3):
        ran = suite.run_argv(argv, folder, FAKE="1")
        expect((ran.status, "the report" in ran.err), (124, True), ran.err)


def check_killed_beside_others(suite: Suite, folder: str) -> None:
    line = f"{suite.program} sleeps 30 & sleep 0.3; kill -9 $!; {suite.program} sound"
    expect_ran(suite.run("--", "sh", "-c", line), 0, "2 processes", "all complete, 1 ended abruptly")


def check_killed_checker(suite: Suite, folder: str) -> None:
    """It costs one process, if that has lived so long that its checker is its own."""
    checker = f"{folder}/asancol"
    with open(checker, "w", encoding="utf-8") as script:
        script.write(f"#!/bin/sh\nif mkdir {folder}/first 2>/dev/null; then kill -9 $$; fi\nexec {suite.asancol}\n")
    os.chmod(checker, 0o755)
    line = f"{suite.program} sleeps 0.5; echo one; {suite.program} sleeps 0.5; echo two"
    ran = suite.run("--", "sh", "-c", line, ASANCOL=checker)
    expect_ran(ran, 98, "its checker was ended by SIGKILL", "2 processes", "1 INCOMPLETE")
    expect(ran.out, "one\ntwo\n", "what the command printed")


def check_huge_pages(suite: Suite, folder: str) -> None:
    """The checkers ask for huge pages, and the command's environment stays as it is."""
    checker, said = f"{folder}/asancol", f"{folder}/said"
    with open(checker, "w", encoding="utf-8") as script:
        script.write(f'#!/bin/sh\necho "$GLIBC_TUNABLES" > {said}\nexec {suite.asancol} "$@"\n')
    os.chmod(checker, 0o755)
    huge, other = "glibc.malloc.hugetlb=1", "glibc.malloc.tcache_count=3"
    for before, of_checker in (("", huge), (other, f"{other}:{huge}"), ("glibc.malloc.hugetlb=0",) * 2):
        line = f'{suite.program} sound; echo "$GLIBC_TUNABLES"'
        ran = suite.run("--", "sh", "-c", line, ASANCOL=checker, GLIBC_TUNABLES=before)
        expect((ran.status, ran.out), (0, f"sound\n{before}\n"), ran.err)
        with open(said, encoding="utf-8") as file:
            expect(file.read(), f"{of_checker}\n", "what the checker was given")


def check_term_during_report(suite: Suite, folder: str) -> None:
    """A signal is passed on, and earlier findings are still reported."""
    started = suite.start("--", suite.program, "past_and_sleeps", "30")
    expect(started.line(), "ready\n", "the program")
    started.send_signal(signal.SIGTERM)
    expect_ran(finish(started), 99, "the report")


def check_signal(suite: Suite, folder: str, number: int, way: str, status: int, text: str) -> None:
    started = suite.start("-v", "--", suite.program, way, "30")
    if way != "sleeps":
        expect(started.line(), "ready\n", "the program")
    else:
        time.sleep(0.5)
    started.send_signal(number)
    expect_ran(finish(started), status, text, "all complete")


# Each would end asancol-run, and the last only comes to nobody.
SENT_FROM_BELOW = [signal.SIGTERM, signal.SIGALRM, signal.SIGABRT, signal.SIGIO, signal.SIGRTMIN + 3, signal.SIGWINCH]


def check_signals_from_below(suite: Suite, folder: str) -> None:
    """An orphan's signal to its parent, process 1 without us, neither ends the run nor comes to the command."""
    for number in SENT_FROM_BELOW:
        ran = suite.run("-v", "--", suite.program, "tells_parent", str(int(number)))
        expect_ran(ran, 3, "3 processes", "all complete", absent=["ended by"])


def check_signal_to_own_group(suite: Suite, folder: str) -> None:
    """What the command sends to its process group, in which asancol-run is too, comes once."""
    for number in (signal.SIGUSR1, signal.SIGALRM, signal.SIGRTMIN + 3, signal.SIGWINCH):
        started = Started([RUN, "--", suite.program, "tells_group", str(int(number))], env=suite.environment(),
                          text=True, preexec_fn=os.setpgrp, stdout=subprocess.PIPE, stderr=subprocess.PIPE)
        expect_ran(finish(started), 1, "1 process", "all complete")


def check_alarm_before(suite: Suite, folder: str) -> None:
    """A timer that was set before ends the command, as in a program that is run in place of the one that set it."""
    argv = [RUN, "-v", "--", suite.program, "sleeps", "30"]
    started = Started(argv, env=suite.environment(), text=True, preexec_fn=lambda: signal.alarm(1) and None,
                      stdout=subprocess.PIPE, stderr=subprocess.PIPE)
    expect_ran(finish(started), -signal.SIGALRM, "ended by SIGALRM", "all complete")


def check_timeout_program(suite: Suite, folder: str) -> None:
    """As under timeout(1)."""
    ran = suite.run_argv(["timeout", "0.7", RUN, "--", suite.program, "sleeps", "30"])
    expect_ran(ran, 124, "1 process", "all complete")


def check_ignored_signals(suite: Suite, folder: str) -> None:
    """Signals ignored before stay ignored, as under nohup."""
    argv = ["sh", "-c", f"trap '' HUP; exec {RUN} -- sh -c '{suite.program} sleeps 0.5; exit 5'"]
    started = Started(argv, env=suite.environment(), stderr=subprocess.PIPE, text=True)
    time.sleep(0.3)
    started.send_signal(signal.SIGHUP)
    expect_ran(finish(started), 5)


def check_child_signal_ignored(suite: Suite, folder: str) -> None:
    """A parent that ignores its children's ends is no harm."""
    before = signal.getsignal(signal.SIGCHLD)
    expect(before, signal.SIG_DFL, "the test's own")
    argv = [RUN, "--", suite.program, "sound"]
    line = f"import os, signal; signal.signal(signal.SIGCHLD, signal.SIG_IGN); os.execv({RUN!r}, {argv!r})"
    expect_ran(suite.run_argv(["python3", "-c", line]), 0, "all complete")


def check_time_limit(suite: Suite, folder: str) -> None:
    begun = time.monotonic()
    ran = suite.run("--timeout", "0.5", "--", suite.program, "sleeps", "30")
    expect_ran(ran, 98, "ended by --timeout, after 0.5 seconds", "INCOMPLETE: was ended by --timeout")
    if time.monotonic() - begun > 4:
        raise Failure("SIGTERM was not enough")


def check_time_limit_with_report(suite: Suite, folder: str) -> None:
    expect_ran(suite.run("--timeout", "0.5", "--", suite.program, "past_and_sleeps", "30"), 99, "the report")


def check_time_limit_for_stubborn(suite: Suite, folder: str) -> None:
    """What ignores SIGTERM gets SIGKILL, a child of a child too."""
    ran = suite.run("--timeout", "0.5", "--", "sh", "-c", f"{suite.program} ignores 60; true")
    expect_ran(ran, 98, "INCOMPLETE: was ended by --timeout")


def check_time_limit_for_orphans(suite: Suite, folder: str) -> None:
    """What the command has left behind is ended too, also past --wait."""
    line = f"{suite.program} ignores 60 > /dev/null 2>&1 & echo $! > {folder}/number; sleep 60"
    ran = suite.run("--wait", "0.1", "--timeout", "0.5", "--", "sh", "-c", line)
    expect_ran(ran, 98, "was ended by --timeout")
    with open(f"{folder}/number", encoding="utf-8") as number:
        expect(os.path.exists(f"/proc/{int(number.read())}"), False, "that it still runs")


def check_time_limit_not_reached(suite: Suite, folder: str) -> None:
    expect_ran(suite.run("--timeout", "60", "-q", "--", suite.program, "sound"), 0, absent=["asancol"])


def check_time_limit_spares_others(suite: Suite, folder: str) -> None:
    """Processes of the same group that the command has not started are left alone."""
    line = f"sleep 1 & {RUN} --timeout 0.3 -- {suite.program} sleeps 30; wait $! && echo spared"
    expect(suite.run_argv(["sh", "-c", line]).out, "spared\n", "the other process")


def at_terminal(suite: Suite, argv: List[str], typed: bytes, after: float, **settings: str) -> Ran:
    """Runs at a terminal, on which something is typed after this many seconds."""
    child, terminal = pty.fork()
    if child == 0:
        os.execve(argv[0], argv, suite.environment(**{"TERM": "xterm", **settings}))
    seen = b""
    with killed_after(child, PATIENCE):
        time.sleep(after)
        os.write(terminal, typed)
        try:
            while piece := os.read(terminal, 4096):
                seen += piece
        except OSError:
            pass  # the terminal has no other end any more
        os.close(terminal)
        status = os.waitpid(child, 0)[1]
    return Ran(os.waitstatus_to_exitcode(status), "", seen.decode())


def check_interrupt_at_terminal(suite: Suite, folder: str) -> None:
    """Ctrl-C ends the command, and not its check."""
    ran = at_terminal(suite, [RUN, "-v", "--", suite.program, "sleeps", "30"], b"\x03", 0.7)
    expect_ran(ran, -signal.SIGINT, "ended by SIGINT", "all complete",
               "the command was interrupted by SIGINT, so later errors may be missing")


def check_interrupt_is_sent_once(suite: Suite, folder: str) -> None:
    """What the terminal sends is not sent again."""
    line = 'count=0; trap "count=\\$((count + 1))" INT; PROGRAM sleeps 30; sleep 0.5; echo count $count; exit 6'
    ran = at_terminal(suite, [RUN, "--", "bash", "-c", line.replace("PROGRAM", suite.program)], b"\x03", 0.7)
    expect_ran(ran, 6, "count 1")


def check_interrupt_with_report(suite: Suite, folder: str) -> None:
    """The report is not ended by the same key."""
    ran = at_terminal(suite, [RUN, "--", suite.program, "past_and_sleeps", "30"], b"\x03", 0.7)
    expect(ran.status, -signal.SIGINT if "the report" not in ran.err else 99, "status")
    line = f"{suite.program} past; {suite.program} sleeps 30"
    expect_ran(at_terminal(suite, [RUN, "--", "sh", "-c", line], b"\x03", 0.7), 99, "the report")


def check_progress(suite: Suite, folder: str) -> None:
    """A line on the terminal, and it is erased."""
    ran = at_terminal(suite, [RUN, "--", suite.program, "orphan", "2.7"], b"", 0.1, FAKE="1")
    expect_ran(ran, 99, "asancol: waiting for processes: 1 checked, 1 to go\r\033[K", "the report")
    for option, terminal in (("-q", "xterm"), ("-v", "dumb"), ("--live=exit", "xterm")):
        argv = [RUN, option, "--", suite.program, "orphan", "2.4"]
        expect_ran(at_terminal(suite, argv, b"", 0.1, TERM=terminal), 99, absent=["waiting"])


def check_life(suite: Suite, folder: str) -> None:
    """A line on the terminal while a long command runs."""
    argv = [RUN, "--", "sh", "-c", f"{suite.program} sound; {suite.program} sleeps 11"]
    text = "asancol: still running after 10 seconds: 1 process checked, 1 running, 0 reports so far\r\n"
    expect_ran(at_terminal(suite, argv, b"", 0.1), 0, text)


def state_of(number: int) -> str:
    """The letter by which the system says what a process does."""
    with open(f"/proc/{number}/stat", encoding="utf-8") as text:
        return text.read().rsplit(")", 1)[1].split()[0]


def child_of(number: int) -> int:
    with open(f"/proc/{number}/task/{number}/children", encoding="utf-8") as text:
        return int(text.read().split()[0])


def check_stop(suite: Suite, folder: str) -> None:
    """SIGTSTP stops both, and SIGCONT lets both go on. In a process group that a shell looks after."""
    argv = [RUN, "--", suite.program, "handles", "1.5"]
    started = Started(argv, env=suite.environment(), text=True, preexec_fn=os.setpgrp,
                      stdout=subprocess.PIPE, stderr=subprocess.PIPE)
    expect(started.line(), "ready\n", "the program")
    command = child_of(started.pid)
    started.send_signal(signal.SIGTSTP)
    wait_until(lambda: state_of(started.pid) == "T" and state_of(command) == "T", "the stop")
    started.send_signal(signal.SIGCONT)
    wait_until(lambda: state_of(started.pid) != "T" and state_of(command) != "T", "the end of the stop")
    expect_ran(finish(started), 0, "all complete")


def check_hub_is_killed(suite: Suite, folder: str) -> None:
    """The command runs on, and ends as usual."""
    mark = f"{folder}/status"
    started = suite.start("--", "sh", "-c", f"{suite.program} handles 0.8; echo $? > {mark}", TMPDIR=folder)
    expect(started.line(), "ready\n", "the program")
    started.kill()
    started.wait()
    wait_until(lambda: os.path.exists(mark) and os.path.getsize(mark) > 0, "the end of the command")
    with open(mark, encoding="utf-8") as status:
        expect(status.read(), "0\n", "its status")


def check_crowd(suite: Suite, folder: str, count: int, descriptors: int) -> None:
    line = f"i=0; while [ $i -lt {count} ]; do {suite.program} sleeps 1 & i=$((i+1)); done; wait"
    argv = ["sh", "-c", f"ulimit -n {descriptors}; exec {RUN} -- sh -c '{line}'"]
    expect_ran(suite.run_argv(argv), 0, f"{count} processes", "all complete")


def check_crowd_with_reports(suite: Suite, folder: str) -> None:
    """Processes with reports hold no descriptors for long."""
    line = f"i=0; while [ $i -lt 200 ]; do {suite.program} past & i=$((i+1)); done; wait"
    packets = f"{folder}/packets"
    argv = ["sh", "-c", f"ulimit -n 64; exec {RUN} -- sh -c '{line}'"]
    expect_ran(suite.run_argv(argv, FAKE_PACKETS=packets), 99, "the report")
    with open(packets, encoding="utf-8") as lines:
        expect(sum('"verdicts"' in it for it in lines), 200, "processes with their verdicts")


def check_short_for_ever(suite: Suite, folder: str) -> None:
    """Those that hold all descriptors and do not end hold nobody up for ever."""
    line = f"i=0; while [ $i -lt 30 ]; do {suite.program} sleeps 8 > /dev/null 2>&1 & i=$((i+1)); done; sleep 1"
    begun = time.monotonic()
    ran = suite.run_argv(["sh", "-c", f"ulimit -n 64; exec {RUN} --wait 1 -- sh -c '{line}'"])
    expect_ran(ran, 98, "was still running at the end of asancol-run")
    if time.monotonic() - begun > 7:
        raise Failure("it has waited")


def check_few_descriptors(suite: Suite, folder: str) -> None:
    """However few there may be, a run ends: it is whole, or says why not, and names a limit under which none can be."""
    for most in range(6, 17):
        ran = suite.run_argv(["sh", "-c", f"ulimit -n {most}; exec {RUN} -- {suite.program} past"], TMPDIR=folder)
        said = {99: "", 98: "INCOMPLETE: ", 125: f"too few descriptors: ulimit -n allows {most}\n"}
        expect_in(ran.err + ran.out, said.get(ran.status, f"status {ran.status}"))
        expect(ran.status == 125, most < 10, f"whether {most} are too few: {ran}")
        expect(os.listdir(folder), [], f"what is left with {most}")


def check_silent_peer(suite: Suite, folder: str) -> None:
    """One that connects and sends nothing does not hold the end up."""
    line = (
        "import os, socket, time; s = socket.socket(socket.AF_UNIX); s.connect(os.environ['ASANCOL_HUB']); "
        "os.fork() and os._exit(0); time.sleep(3)"
    )
    ran = suite.run("--wait", "0.5", "--", "sh", "-c", f'{suite.program} sound; python3 -c "{line}"')
    expect_ran(ran, 98, "INCOMPLETE: was still running at the end of asancol-run")


def check_garbage(suite: Suite, folder: str) -> None:
    line = (
        "import os, socket; s = socket.socket(socket.AF_UNIX); s.connect(os.environ['ASANCOL_HUB']); "
        "s.send(b'junk' * 9)"
    )
    ran = suite.run("--", "sh", "-c", f'{suite.program} sound; python3 -c "{line}"')
    expect_ran(ran, 98, "INCOMPLETE")


def check_standard_closed(suite: Suite, folder: str, closing: str, status: int) -> None:
    """A closed descriptor is closed for the command too, and nothing gets into its place."""
    argv = ["sh", "-c", f"exec {RUN} -q -- {suite.program} open_ones {closing}"]
    expect(suite.run_argv(argv).status, status, closing)


def check_standard_streams(suite: Suite, folder: str) -> None:
    """The command has its own standard input, output and error."""
    line = f"cat; echo error >&2; {suite.program} sound"
    environment = suite.environment()
    ran = call(
        [RUN, "-q", "--", "sh", "-c", line], input=b"input\n", env=environment, capture_output=True, check=False
    )
    expect((ran.returncode, ran.stdout, ran.stderr), (0, b"input\nsound\n", b"error\n"), "streams")


def tests(suite: Suite) -> None:
    suite.test("orphan", check_orphan, "orphan")
    suite.test("daemon", check_orphan, "daemon")
    suite.test("orphan for too long", check_orphan_for_too_long)
    suite.test("cut process runs on", check_cut_process_runs_on)
    spaces = {"": "", "in a namespace": "unshare -rpf", "in a namespace with /proc": "unshare -rpf --mount-proc"}
    for where, words in spaces.items():
        if words and suite.run_argv([*words.split(), "true"]).status != 0:
            leave_out("unshare cannot make namespaces")
            continue
        for name, (line, status) in INHERITED.items():
            suite.test(f"inherited {where}: {name}", check_inherited, line, status, words)
    suite.test("signal ends the waiting", check_hurry)
    suite.test("signal to the group too", check_group_signal)
    suite.test("kill -9 beside others", check_killed_beside_others)
    suite.test("checker is killed", check_killed_checker)
    suite.test("huge pages", check_huge_pages)
    suite.test("SIGTERM with a report", check_term_during_report)
    for number in (signal.SIGINT, signal.SIGTERM, signal.SIGHUP, signal.SIGQUIT, signal.SIGUSR1, signal.SIGUSR2,
                   signal.SIGALRM, signal.SIGPROF, signal.SIGPWR, signal.SIGRTMIN):
        text = f"ended by {'signal 34' if number == signal.SIGRTMIN else number.name}"
        suite.test(f"passes on {number.name}", check_signal, number, "sleeps", -number, text)
    suite.test("handled SIGTERM", check_signal, signal.SIGTERM, "handles", 3, "complete")
    suite.test("handled SIGUSR1", check_signal, signal.SIGUSR1, "handles", 3, "complete")
    suite.test("signals from below", check_signals_from_below)
    suite.test("signal to its own group", check_signal_to_own_group)
    suite.test("alarm set before", check_alarm_before)
    suite.test("timeout(1)", check_timeout_program)
    suite.test("ignored signals", check_ignored_signals)
    suite.test("ignored SIGCHLD", check_child_signal_ignored)
    suite.test("--timeout", check_time_limit)
    suite.test("--timeout with a report", check_time_limit_with_report)
    suite.test("--timeout for the stubborn", check_time_limit_for_stubborn)
    suite.test("--timeout for orphans", check_time_limit_for_orphans)
    suite.test("--timeout that is not reached", check_time_limit_not_reached)
    suite.test("--timeout spares others", check_time_limit_spares_others)
    suite.test("Ctrl-C", check_interrupt_at_terminal)
    suite.test("Ctrl-C is sent once", check_interrupt_is_sent_once)
    suite.test("Ctrl-C with a report", check_interrupt_with_report)
    suite.test("progress", check_progress)
    suite.test("progress while the command runs", check_life)
    suite.test("stop and continue", check_stop)
    suite.test("SIGKILL of asancol-run", check_hub_is_killed)
    suite.test("200 processes, 64 descriptors", check_crowd, 200, 64)
    suite.test("400 processes at once", check_crowd, 400, 4096)
    suite.test("200 processes with reports, 64 descriptors", check_crowd_with_reports)
    suite.test("short for ever", check_short_for_ever)
    suite.test("few descriptors", check_few_descriptors)
    suite.test("silent peer", check_silent_peer)
    suite.test("garbage", check_garbage)
    for closing, status in (("<&-", 6), (">&-", 5), ("2>&-", 3), ("<&- >&- 2>&-", 0), ("", 7)):
        suite.test(f"closed {closing}", check_standard_closed, closing, status)
    suite.test("standard streams", check_standard_streams)
