"""Reports that are printed as they come, and traces that are checked on one thread."""

import itertools
import os
import subprocess
import time

import refused_calls
from program import (
    CUT, FAR_APART, PAST_THE_END, PATIENCE, SOUND, TWICE_FREED, Served, ending_of, holds,
    lines_of_each, opened_by, past_the_end, prepared, put, same, sound, with_refused, without_threads,
)
from testing import test
from testing.traces import CLOSE, closed, free

# Seconds. What comes at once comes within SOON, also on a busy machine. Waits that double for ever, from 16
# microseconds on, are in the middle of one after the PAUSE, and end later than that.
PAUSE, SOON = 5, 3


@test
def live_files(program):
    """The lines of each process are as without --live, and the end lines come last, in order."""
    frees = closed(*[free(0x2000)] * 3000)
    names = [put("past", PAST_THE_END), put("frees", frees), put("cut", CUT), "missing", "frees"]
    status, output, _ = program.run(["check", *names])
    wanted = lines_of_each(output)
    for ring, workers in [("1", "1"), ("1", "64"), ("1024", "2")]:
        argv = ["check", "--live", "--ring", ring, "--workers", workers, *names]
        got = program.run(argv)
        same(argv, (got[0], lines_of_each(got[1]), got[2]), (status, wanted, b""))
        last = [line.split()[:2] for line in got[1].decode().splitlines()[-len(names) :]]
        same(argv, last, [[f"p{process}", "end"] for process in range(len(names))])
    program.expect(["check", "--live", "past"], 1, past_the_end())
    program.expect(["check", "--live", "-"], 0, sound(), given=SOUND)
    program.expect_unwritten(["check", "--live", "past", "frees"])
    argv = ["check", "--live", "--memory", str(1 << 20), put("far", FAR_APART), "past"]
    status, output, _ = program.run(argv)
    same(argv, (status, lines_of_each(output)["p1"]), (3, past_the_end(1)))


@test
def one_file_on_one_thread(program):
    """One trace is read, checked and printed on one thread, whatever the options: with the lines
    and the status of two such traces over threads."""
    frees = closed(*[free(0x2000)] * 3000)
    stray = closed(b"\x09")
    bound = ["--memory", str(1 << 20)]
    choices = [[], bound, ["--live"], ["--live", *bound], ["--ring", "1"], ["--workers", "64"]]
    far = put("far", FAR_APART)
    pairs = [
        (put(f"trace{place}", trace), argv)
        for place, trace in enumerate([PAST_THE_END, SOUND, CUT, b"", frees, stray])
        for argv in choices
    ]
    for name, argv in [*pairs, (far, bound), (far, ["--live", *bound])]:
        status, output, faults = program.run(["check", *argv, name, name])
        wanted = (status, lines_of_each(output)["p0"].encode(), faults)
        argv = ["check", *argv]
        same(argv, program.run([*argv, name]), wanted)
        same(argv, program.run([*argv, name], before=without_threads), wanted)
        with open(name, "rb") as trace:
            same(argv, program.run([*argv, "-"], stdin=trace, before=without_threads), wanted)
    two = program.run(["check", far, far], before=without_threads)
    same("no threads", two, (3, b"p0 end not-started\np1 end not-started\n", b""))


def without_starts(came, workers, is_live, refuses):
    """Which of the senders that came are not started, where the start of each thread fails whose
    number `refuses` chooses, and how many starts there are. The workers that have a sender come
    first, except worker 0 without --live, and then a reader for each sender with a worker."""
    started = sorted({sender % workers for sender in came} - (set() if is_live else {0}))
    lost = {worker for number, worker in enumerate(started, 1) if refuses(number)}
    checked = [sender for sender in came if sender % workers not in lost]
    first = len(started) + 1
    read = [sender for number, sender in enumerate(checked, first) if not refuses(number)]
    return set(came) - set(read), len(started) + len(checked)


@test
def each_thread_that_does_not_start(program):
    """The start of one thread fails, or of each from one on, for each of them in turn. The senders
    of such a worker and of such a reader are not started, and the others are as without it."""
    traces = [PAST_THE_END, SOUND, None, CUT, TWICE_FREED, PAST_THE_END]
    names = ["missing" if it is None else put(f"trace {i}", it) for i, it in enumerate(traces)]
    came = [i for i, it in enumerate(traces) if it is not None]
    whole = lines_of_each(program.run(["check", *names])[1])
    for workers, option in itertools.product([1, 2, 3, 64], ["--verbose", "--live"]):
        argv = ["check", option, "--workers", str(workers), *names]
        is_live = option == "--live"
        most = without_starts(came, workers, is_live, lambda number: False)[1]
        for turn in range(1, most + 2):
            for refuses in [turn.__eq__, turn.__le__]:
                missing, starts = without_starts(came, workers, is_live, refuses)
                lines = {**whole, **{f"p{i}": f"p{i} end not-started\n" for i in missing}}
                said = [f"p{i} {name}: {ending_of(lines[f'p{i}'])}" for i, name in enumerate(names)]
                ran = with_refused(program, argv, refused_calls.THREAD_STARTS, refuses)
                what = (argv, turn, refuses)
                same(what, (ran.status, ran.calls), (3, starts))
                same(what, lines_of_each(ran.output), lines)
                same(what, ran.faults.decode(), "" if is_live else "".join(said))


@test
def one_pipe_on_one_thread(program):
    """While a trace comes through a pipe, there is one thread, and only the pipe is open beside the standard streams.
    With --live each report is read while its process still runs."""
    os.mkfifo("pipe")
    report, end = past_the_end().encode().splitlines(keepends=True)
    second, end = report.replace(b"#2", b"#3"), end.replace(b"2 offset 36 reports 1", b"3 offset 46 reports 2")
    for options in [["--memory", str(1 << 20)], ["--live"]]:
        argv = ["check", *options, "pipe"]
        running = subprocess.Popen(
            [program.path, *argv], preexec_fn=prepared(), stdout=subprocess.PIPE
        )
        Served.running.append(running)
        with open("pipe", "wb", buffering=0) as pipe:
            for record, line in [(PAST_THE_END[:-1], report), (PAST_THE_END[-11:-1], second)]:
                pipe.write(record)
                if "--live" in argv:
                    same(argv, running.stdout.readline(), line)
            same(argv, os.listdir(f"/proc/{running.pid}/task"), [str(running.pid)])
            opened = opened_by(running, 4)
            same(argv, (sorted(opened), opened.get(3)), ([0, 1, 2, 3], os.path.realpath("pipe")))
            pipe.write(CLOSE)
        output, _ = running.communicate(timeout=PATIENCE)
        Served.running.remove(running)
        wanted = end if "--live" in argv else report + second + end
        same(argv, (running.returncode, output), (1, wanted))


@test
def live_after_a_pause(program):
    """A report is read soon though its process was silent for seconds before, and another one still is."""
    served = Served(program, "--live", "--count", "2", "--workers", "1")
    silent, peer = served.connect(), served.connect()
    first, end = past_the_end(1).splitlines(keepends=True)
    second, end = first.replace("#2", "#3"), end.replace("2 offset 36 reports 1", "3 offset 46 reports 2")
    peer.sendall(PAST_THE_END[:-1])
    same(served.argv, served.program.stdout.readline().decode(), first)
    time.sleep(PAUSE)
    began = time.monotonic()
    peer.sendall(PAST_THE_END[-11:-1])
    same(served.argv, served.program.stdout.readline().decode(), second)
    seconds = time.monotonic() - began
    holds(served.argv, seconds < SOON, f"it came after {seconds:.1f} s")
    peer.sendall(CLOSE)
    peer.close()
    silent.sendall(SOUND)
    silent.close()
    served.expect(1, sound(0) + end)


@test
def live_output_that_waits(program):
    """Nothing is lost where the reader of the output is slow."""
    frees = put("frees", closed(*[free(0x2000)] * 9000))
    for ring in ["1", "64", "1024"]:
        argv = ["check", "--live", "--ring", ring, frees, frees, frees]
        running = subprocess.Popen(
            [program.path, *argv],
            preexec_fn=prepared(),
            stdin=subprocess.DEVNULL,
            stdout=subprocess.PIPE,
            stderr=subprocess.PIPE,
        )
        # A pipe holds less than all lines.
        time.sleep(0.5)
        holds(argv, running.poll() is None, "it does not wait for its reader")
        output, faults = running.communicate(timeout=PATIENCE)
        same(argv, (running.returncode, faults), (1, b""))
        _, wanted, _ = program.run([word for word in argv if word != "--live"])
        same(argv, lines_of_each(output), lines_of_each(wanted))


@test
def live_peers(program):
    """A report is read while its process still runs, with one worker for both processes too."""
    for workers in [1, 2]:
        served = Served(program, "--live", "--count", "2", "--workers", str(workers))
        silent, peer = served.connect(), served.connect()
        peer.sendall(PAST_THE_END[:-1])
        report = past_the_end(1).splitlines(keepends=True)[0]
        same(served.argv, served.program.stdout.readline().decode(), report)
        peer.sendall(CLOSE)
        peer.close()
        silent.sendall(SOUND)
        silent.close()
        served.expect(1, sound(0) + past_the_end(1)[len(report) :])
