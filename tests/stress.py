#!/usr/bin/env python3
"""Runs a built program over many traces at once, again and again, and compares the text of each
process with that of its trace checked alone.

usage: tests/stress.py [--minutes M] [--seed S] [--runs N] [--patience SECONDS] PROGRAM

`check` gets up to 256 files and `serve` up to 256 peers, with rings of 1 and of 1,024 events and
with 1, 2 and 64 workers, half of the runs with `--live`. The peers write at the same time, in
pieces of any lengths. A run that does not end in time is ended, and what its threads were doing is
printed. Each run is drawn by its own seed, which is printed where it failed, so that
`--seed S --runs 1` makes it again. The last line counts the runs, and the status is 1 where one
failed.
"""

import argparse
import os
import random
import socket
import subprocess
import sys
import tempfile
import threading
import time

sys.path.insert(0, f"{os.path.dirname(os.path.realpath(__file__))}/..")  # where `testing` is

from testing.traces import CLOSE, HEADER, free, load, malloc, poison, store, unpoison

RINGS = ["1", "1024"]
WORKERS = ["1", "2", "64"]

# The most senders of one call.
MOST = 256

# How many traces the runs choose from.
TRACES = 64


def made_trace(draw):
    """A trace of any shape: long or short, whole or damaged, with many reports or none."""
    records = []
    blocks = []
    bad = draw.choice([0, 0.01, 0.5])
    place = 0x10000
    for _ in range(draw.choice([0, 1, 10, 300, 20_000])):
        turn = draw.random()
        if turn < 0.2 or not blocks:
            size = draw.choice([0, 5, 8, 40, 4096])
            records.append(malloc(place, size))
            blocks.append((place, size))
            place += size // 8 * 8 + 128
        elif turn < 0.35:
            at, _ = blocks.pop(draw.randrange(len(blocks)))
            records.append(free(at))
            if draw.random() < bad:
                records.append(free(at))
        elif turn < 0.4:
            at, size = draw.choice(blocks)
            records.append(draw.choice([poison, unpoison])(at, size))
        else:
            at, size = draw.choice(blocks)
            past = 8 if draw.random() < bad else 0
            record = draw.choice([load, store])
            records.append(record(draw.choice([1, 2, 4, 8]), at + max(size - 8, 0) + past))
    text = HEADER + b"".join(records)
    damage = draw.random()
    if damage < 0.7:
        return text + CLOSE
    if damage < 0.8:
        return text[: draw.randrange(len(text) + 1)]
    if damage < 0.9:
        return text
    place = draw.randrange(len(text))
    return text[:place] + bytes([draw.randrange(256)]) + text[place + 1 :] + CLOSE


def threads_of(process):
    """What the threads of a process do, as far as the system says."""
    lines = []
    tasks = f"/proc/{process}/task"
    for task in sorted(os.listdir(tasks), key=int):
        said = [task]
        for name in ["stat", "wchan", "syscall"]:
            try:
                with open(f"{tasks}/{task}/{name}", encoding="ascii", errors="replace") as file:
                    text = file.read().split(") ")[-1]
                    said.append(f"{name} {text.split(' ')[0].strip()}")
            except OSError:
                pass
        lines.append(" ".join(said))
    return "\n".join(lines)


def start(program, folder, words):
    # pylint: disable-next=consider-using-with
    return subprocess.Popen(
        [program, *words],
        cwd=folder,
        stdin=subprocess.DEVNULL,
        stdout=subprocess.PIPE,
        stderr=subprocess.PIPE,
    )


def finished(running, patience):
    """What it wrote and its status, or what its threads do where it does not end in time."""
    try:
        output, faults = running.communicate(timeout=patience)
        return output, faults, running.returncode
    except subprocess.TimeoutExpired:
        doing = threads_of(running.pid)
        running.kill()
        output, _ = running.communicate()
        return output, f"no end after {patience} s\n{doing}".encode(), None


def connected(path, running, patience):
    """A peer of a program that serves this socket, once it listens."""
    end = time.monotonic() + patience
    while running.poll() is None and time.monotonic() < end:
        peer = socket.socket(socket.AF_UNIX)
        try:
            peer.connect(path)
            return peer
        except OSError:
            peer.close()
            time.sleep(0.005)
    raise AssertionError(f"no socket listens: {finished(running, patience)}")


def write(peer, text, seed):
    """Writes a trace to a socket, in pieces of any lengths, and closes it."""
    draw = random.Random(seed)
    most = draw.choice([3, 100, 5_000, 1 << 20])
    at = 0
    with peer:
        peer.settimeout(600)
        try:
            while at < len(text):
                length = draw.randint(1, most)
                peer.sendall(text[at : at + length])
                at += length
                # Small pieces of a long trace would take for ever.
                most = max(most, len(text) // 500)
        except OSError:
            # A collector that was ended, or one for which the trace was over before.
            pass


class Trace:
    """A trace, its file, and its output alone."""

    def __init__(self, program, folder, number, text):
        self.number = number
        self.text = text
        with open(f"{folder}/{number}.trace", "wb") as file:
            file.write(text)
        ran = subprocess.run([program], input=text, capture_output=True, check=False, timeout=600)
        self.lines = ran.stdout
        self.status = ran.returncode
        alone = subprocess.run(
            [program, "check", f"{folder}/{number}.trace"],
            stdin=subprocess.DEVNULL,
            capture_output=True,
            check=False,
            timeout=600,
        )
        if (alone.stdout, alone.returncode) != (self.lines, self.status):
            raise AssertionError(f"{number}.trace: check and standard input differ")

    def as_process(self, process):
        return b"".join(
            b"p%d%s" % (process, line[2:]) for line in self.lines.splitlines(keepends=True)
        )


def first_difference(got, wanted):
    for line, (one, other) in enumerate(zip(got.splitlines(), wanted.splitlines())):
        if one != other:
            return f"line {line + 1}: got {one!r}, wanted {other!r}"
    return f"got {len(got)} bytes, wanted {len(wanted)}"


def by_process(output):
    """The lines of each process, process after process, as they are without --live."""
    lines = output.splitlines(keepends=True)
    return b"".join(sorted(lines, key=lambda line: int(line.split(b" ")[0][1:])))


class Stress:
    """The program, its traces, and the folder that they lie in."""

    def __init__(self, program, patience, folder, draw):
        self.program = program
        self.patience = patience
        self.folder = folder
        self.traces = [
            Trace(program, folder, number, made_trace(draw)) for number in range(TRACES)
        ]

    def check(self, options, chosen):
        """What `check` answers of the files of these traces."""
        names = [f"{trace.number}.trace" for trace in chosen]
        words = ["check", *options, *names]
        return finished(start(self.program, self.folder, words), self.patience)

    def serve(self, options, chosen, draw):
        """What `serve` answers of peers that send these traces, all at the same time."""
        path = f"{self.folder}/socket"
        if os.path.exists(path):
            os.remove(path)
        words = ["serve", *options, "--count", str(len(chosen)), "socket"]
        running = start(self.program, self.folder, words)
        peers = []
        for trace in chosen:
            peer = connected(path, running, self.patience)
            peers.append(threading.Thread(target=write, args=(peer, trace.text, draw.random())))
        for peer in peers:
            peer.start()
        answer = finished(running, self.patience)
        for peer in peers:
            peer.join()
        return answer

    def run(self, seed):
        """One run, by its seed: how many traces it had, and what went wrong, if anything did."""
        draw = random.Random(seed)
        chosen = draw.choices(self.traces, k=draw.choice([1, 2, 3, 7, 20, 64, 255, MOST]))
        options = ["--ring", draw.choice(RINGS), "--workers", draw.choice(WORKERS)]
        options += draw.choice([[], ["--live"]])
        command = draw.choice(["check", "serve"])
        if command == "check":
            output, faults, status = self.check(options, chosen)
        else:
            output, faults, status = self.serve(options, chosen, draw)
        if "--live" in options:
            output = by_process(output)
        text = b"".join(trace.as_process(process) for process, trace in enumerate(chosen))
        # Of the statuses 0, 1 and 3 the greatest counts.
        wanted = max(trace.status for trace in chosen)
        if (output, faults, status) == (text, b"", wanted):
            return len(chosen), None
        return len(chosen), (
            f"seed {seed}: {command} {' '.join(options)}, {len(chosen)} traces\n"
            f"status {status}, wanted {wanted}; {first_difference(output, text)}\n"
            f"{faults.decode(errors='replace')}"
        )


def main():
    words = argparse.ArgumentParser(description=__doc__.split("\n\n", maxsplit=1)[0])
    words.add_argument("program", help="the built program")
    words.add_argument("--minutes", type=float, default=10, help="how long to go on [10]")
    words.add_argument("--seed", type=int, default=1, help="the first run's seed [1]")
    words.add_argument("--runs", type=int, help="how many runs at most")
    words.add_argument("--patience", type=float, default=300, help="seconds a run may take [300]")
    words = words.parse_args()
    end = time.monotonic() + 60 * words.minutes
    runs = failed = processes = 0
    with tempfile.TemporaryDirectory() as folder:
        program = os.path.abspath(words.program)
        stress = Stress(program, words.patience, folder, random.Random(0))
        while time.monotonic() < end and runs != words.runs:
            try:
                count, fault = stress.run(words.seed + runs)
            except AssertionError as error:
                count, fault = 0, f"seed {words.seed + runs}: {error}"
            runs += 1
            processes += count
            if fault:
                failed += 1
                print(fault, flush=True)
    print(f"{processes} processes, {runs - failed} runs passed, {failed} failed")
    return 1 if failed else 0


if __name__ == "__main__":
    sys.exit(main())
