#!/usr/bin/env python3
"""Takes from a built program what it needs, and sees what it says of each process then.

usage: tests/failures.py PROGRAM

Memory, threads and file descriptors run short, peers die or reset their connection, the output is
full or its reader has gone. After each run the text of each process is that of its trace checked
alone, or one that its own failure explains, and the status fits. Or nothing was read, and the
program says 'no memory'. The last line is 'N passed, M failed', and the status is 1 where a case
failed. It takes a minute or two.
"""

import os
import re
import resource
import socket
import subprocess
import sys
import threading

sys.path.insert(0, f"{os.path.dirname(os.path.realpath(__file__))}/..")  # where `testing` is

import program as programs
from program import CUT, PAST_THE_END, PATIENCE, SOUND, TWICE_FREED
from program import Served, holds, prepared, put, same
from testing import test
from testing.traces import HEADER, closed, load, malloc

# 2,000 blocks that are far from one another, and 200 loads past their ends. It takes some memory.
SPREAD = closed(
    *[malloc(0x10000 + (block << 20), 16) for block in range(2000)],
    *[load(1, 0x10010 + (block << 20)) for block in range(0, 2000, 10)],
)

# What a process ends with where something failed: after this number of events, where it was read.
FAILED = re.compile(
    r"not-started|not-opened"
    r"|no-memory checked (?P<checked>\d+) reports \d+"
    r"|read-failed events (?P<read>\d+) offset \d+ reports \d+"
)


class Traces:
    """Traces, one for each process, and the output for each alone."""

    def __init__(self, program, traces):
        self.alone = []
        seen = {}
        for trace in traces:
            if trace not in seen:
                _, output, faults = program.run([], given=trace)
                same("alone", faults, b"")
                seen[trace] = [line[3:] for line in output.decode().splitlines()]
            self.alone.append(seen[trace])

    def explain(self, what, ran):
        """Sees that a run's texts and its status are explained. How many texts are not whole."""
        status, output, faults = ran
        holds(what, status >= 0, f"signal {-status}")
        if (status, output) == (3, b""):
            same(what, faults, b"no memory\n")
            return len(self.alone)
        same(what, faults, b"")
        rest = output.decode().splitlines()
        ends, failed = [], 0
        for process, whole in enumerate(self.alone):
            mine = []
            while rest and rest[0].startswith(f"p{process} "):
                mine.append(rest.pop(0).split(" ", 1)[1])
            holds(what, mine and mine[-1].startswith("end "), (process, rest[:1]))
            if mine != whole:
                explain_one((what, process), mine, whole)
                failed += 1
            ends.append(mine[-1])
        same(what, rest, [])
        wanted = 1 if b" #" in output else 0
        same(what, status, wanted if all(end.startswith("end closed ") for end in ends) else 3)
        return failed


def explain_one(what, mine, whole):
    """Sees that a text which is not the whole one says a failure, and has the first reports."""
    failed = FAILED.fullmatch(mine[-1][4:])
    holds(what, failed, mine[-1])
    events = failed["checked"] or failed["read"]
    first = [line for line in whole[:-1] if events and int(line.split()[0][1:]) <= int(events)]
    same(what, mine[:-1], first)
    if events:
        holds(what, mine[-1].endswith(f" reports {len(first)}"), mine[-1])


def limit_of(kind, most):
    """What sets a limit just before the program starts."""
    return lambda: resource.setrlimit(kind, (most, most))


# ---- what runs short


@test
def less_and_less_memory(program):
    """200 files, under a bound on the address space that shrinks until the program can't start."""
    traces = [[SOUND, PAST_THE_END, SPREAD, TWICE_FREED, CUT][i % 5] for i in range(200)]
    known = Traces(program, traces)
    names = [put(f"trace {i}", trace) for i, trace in enumerate(traces)]
    seen = set()
    kibibytes = 1 << 24
    while b"no memory\n" not in seen:
        before = limit_of(resource.RLIMIT_AS, kibibytes << 10)
        ran = program.run(["check", *names], before=before)
        known.explain(f"{kibibytes} KiB", ran)
        seen |= set(re.findall(rb"end (not-started|no-memory|closed)", ran[1])) | {ran[2]}
        kibibytes = kibibytes * 15 // 16
    same("seen", seen, {b"", b"closed", b"not-started", b"no-memory", b"no memory\n"})


@test
def fewer_descriptors_than_files(program):
    traces = [[SOUND, PAST_THE_END, CUT][i % 3] for i in range(40)]
    known = Traces(program, traces)
    names = [put(f"trace {i}", trace) for i, trace in enumerate(traces)]
    opened = []
    for most in range(6, 46):
        before = limit_of(resource.RLIMIT_NOFILE, most)
        opened.append(40 - known.explain(most, program.run(["check", *names], before=before)))
    # Each descriptor more opens a file more.
    same("opened", opened, [min(opened[0] + more, 40) for more in range(40)])
    holds("opened", opened[0] < 10 and opened[-1] == 40, opened)


@test
def fewer_descriptors_than_peers(program):
    """An accept that fails uses up one of the count, and the peers before it keep their texts."""
    known = Traces(program, [PAST_THE_END] * 20)
    for most in [6, 8, 15, 30]:
        before = limit_of(resource.RLIMIT_NOFILE, most)
        served = Served(program, "--count", "20", before=before)
        peers = [served.connect()]
        for _ in range(19):
            peers.append(socket.socket(socket.AF_UNIX))
            try:
                peers[-1].connect("socket")
            except OSError:
                pass  # all that had come in were read, and the program has ended
        for peer in peers:
            send(peer, PAST_THE_END)
        # Three descriptors are the standard streams, and one is that of the socket.
        same(most, known.explain(most, served.answer()), max(20 - (most - 4), 0))


@test
def small_stack(program):
    """256 files and 64 workers with a stack of 256 KB: no call nests by their number."""
    traces = [[SOUND, PAST_THE_END, TWICE_FREED, CUT][i % 4] for i in range(256)]
    known = Traces(program, traces)
    names = [put(f"trace {i}", trace) for i, trace in enumerate(traces)]
    before = limit_of(resource.RLIMIT_STACK, 256 << 10)
    for argv in [[], ["--workers", "64"], ["--workers", "64", "--ring", "1"]]:
        ran = program.run(["check", *argv, *names], before=before)
        same(argv, known.explain(argv, ran), 0)
    ran = program.run(["check", "--live", "--workers", "64", *names], before=before)
    same("--live", (ran[0], ran[2]), (3, b""))
    same("--live", len(ran[1].splitlines()), sum(map(len, known.alone)))


# ---- peers and their connections


def send(peer, data):
    """Sends it and closes. It does not matter whether anybody takes it."""
    try:
        peer.sendall(data)
    except OSError:
        pass
    peer.close()


def send_half_open(peer, data):
    """Sends it, shuts the sending half and keeps the other until the program has ended."""
    peer.sendall(data)
    peer.shutdown(socket.SHUT_WR)
    peer.recv(1)
    peer.close()


def send_without_reading(peer, data):
    peer.shutdown(socket.SHUT_RD)
    send(peer, data)


def send_and_die(peer, data):
    """Another process sends it and is killed."""
    octal = "".join(f"\\{byte:03o}" for byte in data)
    subprocess.run(["sh", "-c", f"printf '{octal}'; kill -KILL $$"], stdout=peer, check=False)
    peer.close()


def send_more(peer, data):
    """Writes on after the end of it, and may have to wait until the program has ended."""
    send(peer, data + bytes(1 << 22))


@test
def peers_that_go_wrong(program):
    """Each stands between two peers whose text stays the same."""
    wrong = [
        (send_half_open, PAST_THE_END),
        (send_half_open, CUT),
        (send_without_reading, PAST_THE_END),
        (send_and_die, HEADER[:3]),
        (send_and_die, CUT),
        (send_more, PAST_THE_END),
        (send, b""),
    ]
    turns = [turn for one in wrong for turn in [(send, PAST_THE_END), one]] + [(send, SPREAD)]
    known = Traces(program, [trace for _, trace in turns])
    for ring in ["1", "1024"]:
        served = Served(program, "--count", str(len(turns)), "--ring", ring)
        peers = [served.connect() for _ in turns]
        sending = [
            threading.Thread(target=how, args=(peer, trace))
            for peer, (how, trace) in zip(peers, turns)
        ]
        for one in sending:
            one.start()
        same(ring, known.explain(ring, served.answer()), 0)
        for one in sending:
            one.join()


@test
def peer_that_resets(program):
    """The connection on standard input is reset after these bytes."""
    put("spread", SPREAD)
    known = Traces(program, [SPREAD, PAST_THE_END, SPREAD])
    for length in range(len(PAST_THE_END) + 1):
        ours, theirs = socket.socketpair()
        ours.sendall(PAST_THE_END[:length])
        # A connection that is closed before all was read is reset.
        theirs.sendall(b"unread")
        ours.close()
        ran = program.run(["check", "spread", "-", "spread"], stdin=theirs)
        theirs.close()
        failed = known.explain(length, ran)
        same(length, failed, 0 if length == len(PAST_THE_END) else 1)
        holds(length, failed == 0 or b"\np1 end read-failed " in ran[1], ran)


# ---- the output


@test
def outputs_that_take_no_more(program):
    """The output is on a full device, or its reader is gone, at once or after some bytes."""
    names = [put(f"trace {i}", SPREAD) for i in range(10)]
    for argv in [[], ["check", *names]]:
        program.expect_unwritten(argv, given=SPREAD)
        reader, writer = os.pipe()
        os.close(reader)
        same(argv, program.run(argv, given=SPREAD, stdout=writer), (4, None, b""))
        os.close(writer)
    served = Served(program, "--count", "1").send(SPREAD)
    served.program.stdout.close()
    same(served.argv, served.answer(), (4, b"", b""))
    # More than a pipe holds.
    _, text, _ = program.run(["check", *names])
    running = subprocess.Popen(
        [program.path, "check", *names], preexec_fn=prepared(), stdout=subprocess.PIPE
    )
    same("check", running.stdout.read(1000), text[:1000])
    running.stdout.close()
    same("check", running.wait(PATIENCE), 4)


if __name__ == "__main__":
    sys.exit(programs.main(__doc__, lambda suite: suite.collect(sys.modules[__name__])))
