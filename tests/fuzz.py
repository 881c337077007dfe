#!/usr/bin/env python3
"""Compares a program with an oracle, on traces that are drawn.

usage: tests/fuzz.py [--draws N] [--seed S] [--batch B] PROGRAM..

Draws N traces, good and damaged, in each version of the format, and puts them to the program in
batches of up to 256: as files, through pipes and a standard input with writes cut anywhere, over
sockets to `asancol serve`, with --live, and with options at the ends of their ranges. Everything
that is printed, and the status, has to be what `oracle.py` says, which was written from the
documents alone. Where --memory is as small as it may be, a process may end as no-memory, with the
lines of its first events.

The first line has the seed. The same seed draws the same traces; --batch B begins with that batch.
The first batch that differs ends it: the trace is made as short as it still differs, and written
to a file here, with the command that shows it. The last line is 'N passed, M failed', N batches.
"""

import argparse
import fcntl
import os
import shutil
import socket
import subprocess
import sys
import tempfile
import time
from random import Random
from typing import Dict, List, NamedTuple, Optional, Tuple

sys.path.insert(0, f"{os.path.dirname(os.path.realpath(__file__))}/..")  # where `testing` is

import oracle
from testing import draws
from testing.traces import layout_at, version_of

# No batch may take longer, in seconds.
PATIENCE = 120

# Each read of a pipe or a socket that keeps its messages apart gives one piece, of at most this many.
MAX_PIECE = 4096

# A trace comes in at most about this many pieces. They wait in the pipe or the socket if nobody reads:
# after a close the program reads no more of that trace, and the others still have to be written.
MAX_PIECES = 200
PIPE_ROOM = 1 << 20
F_SETPIPE_SZ = 1031  # of Linux; Python's fcntl has it from 3.10 on


class Batch(NamedTuple):
    """Traces that are put to the program at once. `way` says how, and `words` are its options."""

    way: str
    argv: List[str]
    limit: int
    quarantine: int
    may_lack_memory: bool
    traces: List[bytes]
    random: Random


class Printed(NamedTuple):
    status: int
    output: bytes
    faults: bytes


class Differs(Exception):
    """What the program printed is not what the documents say, of one process or of all (None)."""

    def __init__(self, process: Optional[int], text: str) -> None:
        super().__init__(text)
        self.process = process


def options(random: Random) -> Tuple[List[str], int, int, bool]:
    """Draws options, mostly none, and answers them and what they say."""
    limit, quarantine = oracle.MAX_LIMIT, oracle.DEFAULT_QUARANTINE
    argv: List[str] = []
    if random.random() < 0.3:
        limit = random.choice([1, 2, 3, 7, 12, 24, oracle.MAX_LIMIT])
        argv += ["--limit", str(limit)]
    if random.random() < 0.5:
        quarantine = random.choice([0, 63, 64, 71, 72, 80, 143, 144, 216, 1000, 1 << 40])
        argv += ["--quarantine", str(quarantine)]
    if random.random() < 0.3:
        argv += ["--ring", str(random.choice([1, 2, 3, 1024, 65536]))]
    if random.random() < 0.3:
        argv += ["--workers", str(random.choice([1, 2, 3, 64]))]
    memory = random.choice([0] * 8 + [1 << 20, 1 << 40])
    if memory:
        argv += [f"--memory={memory}"]
    if random.random() < 0.3:
        argv += ["--live"]
    return argv, limit, quarantine, memory == 1 << 20


WAYS = ["files"] * 10 + ["pipes", "pipes", "served", "served"] + ["input", "failed input"] * 3
MAX_OF_WAY = {"files": 256, "pipes": 48, "served": 48, "input": 1, "failed input": 1}


def draw_batch(seed: int, number: int) -> Batch:
    random = Random(f"{seed}/{number}")
    way = random.choice(WAYS)
    most = MAX_OF_WAY[way]
    argv, limit, quarantine, may_lack_memory = options(random)
    count = most if random.random() < 0.7 else random.randrange(1, most + 1)
    traces = [draws.draw(random) for _ in range(count)]
    return Batch(way, argv, limit, quarantine, may_lack_memory, traces, random)


def pieces_of(random: Random, trace: bytes) -> List[bytes]:
    """The trace, cut anywhere."""
    average = random.choice([1, 3, 10, 40, 1000])
    pieces: List[bytes] = []
    at = 0
    while at < len(trace):
        size = min(1 + int(random.expovariate(1 / average)), MAX_PIECE)
        if len(pieces) >= MAX_PIECES:
            size = MAX_PIECE
        pieces.append(trace[at : at + size])
        at += size
    return pieces


# ---- ways to put traces to a program


def ran(program: str, argv: List[str], **how: object) -> Printed:
    done = subprocess.run(
        [program, *argv], stdout=subprocess.PIPE, stderr=subprocess.PIPE, timeout=PATIENCE, **how  # type: ignore
    )
    return Printed(done.returncode, done.stdout, done.stderr)


def write_traces(traces: List[bytes]) -> List[str]:
    """Writes the traces into the current folder, over earlier ones, and returns their names."""
    for i, trace in enumerate(traces):
        with open(f"{i}.trace", "wb") as file:
            file.write(trace)
    return [f"{i}.trace" for i in range(len(traces))]


def through_files(program: str, batch: Batch) -> Printed:
    return ran(program, ["check", *batch.argv, *write_traces(batch.traces)], stdin=subprocess.DEVNULL)


class Running:
    """A program that runs while it is written to. What it prints goes to files, so that it never
    waits for this one."""

    def __init__(self, program: str, argv: List[str], **how: object) -> None:
        self.output, self.faults = tempfile.TemporaryFile(), tempfile.TemporaryFile()
        self.program = subprocess.Popen(
            [program, *argv], stdout=self.output, stderr=self.faults, **how  # type: ignore
        )

    def printed(self) -> Printed:
        try:
            status = self.program.wait(PATIENCE)
        finally:
            self.program.kill()
        self.output.seek(0)
        self.faults.seek(0)
        with self.output, self.faults:
            return Printed(status, self.output.read(), self.faults.read())


def write_mixed(random: Random, feeds: Dict[int, List[bytes]]) -> None:
    """Writes all pieces to their descriptors, in their order, mixed, and closes each at its end. A
    reader that takes no more, as after a close, changes nothing."""
    open_ones = list(feeds)
    while open_ones:
        place = random.randrange(len(open_ones))
        to = open_ones[place]
        try:
            for _ in range(random.choice([1, 1, 2, 8])):
                if feeds[to]:
                    os.write(to, feeds[to].pop(0))
        except (BrokenPipeError, ConnectionResetError):
            feeds[to].clear()
        if not feeds[to]:
            os.close(to)
            open_ones.pop(place)


def through_pipes(program: str, batch: Batch) -> Printed:
    """Each read gives one piece, or the first bytes of one: the pipes keep pieces apart."""
    pipes = [os.pipe2(os.O_DIRECT | os.O_CLOEXEC) for _ in batch.traces]
    readers = [reader for reader, _ in pipes]
    argv = ["check", *batch.argv, *(f"/dev/fd/{reader}" for reader in readers)]
    running = Running(program, argv, pass_fds=readers, stdin=subprocess.DEVNULL)
    feeds = {}
    for (_, writer), trace in zip(pipes, batch.traces):
        fcntl.fcntl(writer, F_SETPIPE_SZ, PIPE_ROOM)
        feeds[writer] = pieces_of(batch.random, trace)
    write_mixed(batch.random, feeds)
    # The program opens these names anew: a pipe has to be there until it has.
    printed = running.printed()
    for reader in readers:
        os.close(reader)
    return printed


def through_input(program: str, batch: Batch) -> Printed:
    """One trace through standard input, each piece by one read. A failed read is that of a
    connection whose other end was closed before it had read everything."""
    kind = socket.SOCK_STREAM if batch.way == "failed input" else socket.SOCK_SEQPACKET
    theirs, ours = socket.socketpair(socket.AF_UNIX, kind)
    if batch.way == "failed input":
        theirs.send(b"unread")
    argv = ["check", *batch.argv, "-"] if batch.argv or batch.random.random() < 0.5 else []
    running = Running(program, argv, stdin=theirs)
    theirs.close()
    write_mixed(batch.random, {ours.detach(): pieces_of(batch.random, batch.traces[0])})
    return running.printed()


def through_socket(program: str, batch: Batch) -> Printed:
    for name in ["ready", "farm.sock"]:
        if os.path.exists(name):
            os.remove(name)
    argv = ["serve", *batch.argv, "--count", str(len(batch.traces)), "--ready", "ready", "farm.sock"]
    running = Running(program, argv, stdin=subprocess.DEVNULL)
    until = time.monotonic() + PATIENCE
    while not os.path.exists("ready") and time.monotonic() < until:
        time.sleep(0.001)
    feeds = {}
    for trace in batch.traces:
        peer = socket.socket(socket.AF_UNIX, socket.SOCK_STREAM)
        peer.connect("farm.sock")
        feeds[peer.detach()] = pieces_of(batch.random, trace)
    write_mixed(batch.random, feeds)
    return running.printed()


PUT = {
    "files": through_files,
    "pipes": through_pipes,
    "served": through_socket,
    "input": through_input,
    "failed input": through_input,
}


# ---- what has to be printed


def lines_of_each(output: bytes, count: int, is_live: bool) -> List[List[str]]:
    """The lines of each process, as they were printed. Their order is looked at too: without
    --live process by process, and with it the end lines last."""
    lines = output.decode("ascii").split("\n")
    if lines.pop() != "":
        raise Differs(None, "the last line has no end")
    found: List[List[str]] = [[] for _ in range(count)]
    for line in lines:
        front = line.split(" ", 1)[0]
        if front[:1] != "p" or not front[1:].isdigit() or int(front[1:]) >= count:
            raise Differs(None, f"a line of no process: {line!r}")
        found[int(front[1:])].append(line)
    in_order = [line for of_process in found for line in of_process]
    if not is_live and lines != in_order:
        raise Differs(None, "the lines are not in the order of the processes")
    if is_live and lines[-count:] != [of_process[-1] for of_process in found if of_process]:
        raise Differs(None, "the end lines do not come last, in order")
    return found


def without_memory(process: int, last: str, verdicts: List[oracle.Verdict], events: int) -> Optional[List[str]]:
    """The lines of a process whose checker had no more memory, if its end line says so."""
    words = last.split()
    if words[2:4] != ["no-memory", "checked"] or not words[4].isdigit() or int(words[4]) >= events:
        return None
    checked = [verdict for verdict in verdicts if verdict.number <= int(words[4])]
    lines = [f"p{process} #{verdict.number} {verdict.text}" for verdict in checked]
    return [*lines, f"p{process} end no-memory checked {words[4]} reports {len(checked)}"]


def compare(batch: Batch, printed: Printed) -> None:
    """Raises Differs unless all that was printed is what the documents say."""
    ends: List[Tuple[str, int]] = []
    found = lines_of_each(printed.output, len(batch.traces), "--live" in batch.argv)
    for process, trace in enumerate(batch.traces):
        reading = oracle.read(trace, batch.limit, batch.way == "failed input")
        verdicts = oracle.verdicts(reading.events, batch.quarantine)
        wanted, got = oracle.lines_of(process, reading, verdicts), found[process]
        fate = reading.fate
        if got != wanted and got and batch.may_lack_memory:
            lacking = without_memory(process, got[-1], verdicts, len(reading.events))
            wanted, fate = (lacking, "no-memory") if lacking else (wanted, fate)
        if got != wanted:
            raise Differs(process, "got\n    " + "\n    ".join(got) + "\nwanted\n    " + "\n    ".join(wanted))
        ends.append((fate, len(verdicts)))
    if printed.faults:
        raise Differs(None, f"standard error has {printed.faults!r}")
    wanted_status = oracle.status_of(ends)
    if printed.status != wanted_status:
        raise Differs(None, f"got status {printed.status}, wanted {wanted_status}")


def difference(program: str, batch: Batch) -> Optional[Differs]:
    try:
        compare(batch, PUT[batch.way](program, batch))
    except Differs as found:
        return found
    except subprocess.TimeoutExpired:
        return Differs(None, f"it did not end within {PATIENCE} s")
    return None


# ---- a trace that differs


def records_of(trace: bytes) -> List[bytes]:
    """The trace in parts: the header, records as far as they can be made out, and bytes."""
    parts, at = [trace[:8]], 8
    version = version_of(trace) or 1
    while at < len(trace):
        layout = layout_at(trace, at, version)
        length = layout.size if layout else 1
        parts.append(trace[at : at + length])
        at += length
    return parts


def shortened(program: str, batch: Batch) -> bytes:
    """The trace of a batch that has one, without what it differs without."""
    parts = records_of(batch.traces[0])
    size = max(len(parts) // 2, 1)
    while size > 0:
        at = 1
        while at < len(parts):
            fewer = parts[:at] + parts[at + size :]
            if difference(program, batch._replace(traces=[b"".join(fewer)])):
                parts = fewer
            else:
                at += size
        size //= 2
    return b"".join(parts)


def show(program: str, here: str, seed: int, number: int, batch: Batch, found: Differs) -> None:
    """Says what differs, and leaves the trace here if one trace alone differs too."""
    print(f"FAILED batch {number}, {batch.way}, {' '.join(batch.argv)}: process {found.process}: {found}")
    print(f"    again: tests/fuzz.py --seed {seed} --batch {number} --draws 1 {program}")
    if found.process is None:
        return
    way = "failed input" if batch.way == "failed input" else "files"
    alone = batch._replace(way=way, traces=[batch.traces[found.process]])
    name = f"fuzz-{seed}-{number}.trace"
    if difference(program, alone):
        alone = alone._replace(traces=[shortened(program, alone)])
        text = str(difference(program, alone))
        print(f"    alone: asancol check {' '.join([*batch.argv, name])}\n{text}")
    with open(f"{here}/{name}", "wb") as file:
        file.write(alone.traces[0])
    print(f"    the trace: {name}, {alone.traces[0].hex(' ')}", flush=True)


def fuzz(program: str, here: str, seed: int, first: int, count: int) -> Tuple[int, int]:
    """Draws until there were `count` traces, and answers how many batches passed and failed."""
    drawn, number = 0, first
    while drawn < count:
        batch = draw_batch(seed, number)
        found = difference(program, batch)
        if found:
            show(program, here, seed, number, batch, found)
            return number - first, 1
        drawn += len(batch.traces)
        number += 1
    print(f"{os.path.basename(program)}: {drawn} traces in {number - first} batches")
    return number - first, 0


def main(argv: List[str]) -> int:
    reader = argparse.ArgumentParser(description=(__doc__ or "").split("\n", 1)[0])
    reader.add_argument("--draws", type=int, default=100_000, help="how many traces are drawn")
    reader.add_argument("--seed", type=int, default=int(time.time()), help="what is drawn")
    reader.add_argument("--batch", type=int, default=0, help="the first batch")
    reader.add_argument("programs", nargs="+", metavar="PROGRAM")
    request = reader.parse_args(argv)
    here, passed, failed = os.getcwd(), 0, 0
    programs = [os.path.abspath(it) for it in request.programs]
    print(f"seed {request.seed}", flush=True)
    room = tempfile.mkdtemp(prefix="asancol-fuzz-", dir="/dev/shm" if os.access("/dev/shm", os.W_OK) else None)
    try:
        os.chdir(room)
        for program in programs:
            of_program = fuzz(program, here, request.seed, request.batch, request.draws)
            passed, failed = passed + of_program[0], failed + of_program[1]
    finally:
        os.chdir(here)
        shutil.rmtree(room)
    print(f"{passed} passed, {failed} failed")
    return 1 if failed else 0


if __name__ == "__main__":
    sys.exit(main(sys.argv[1:]))
