#!/usr/bin/env python3
"""Records programs against an endless service for hours, and looks at what serves them.

usage: run/tests/soak.py [--hours H] [--workers N] [--seed S] ASANCOL

Programs start, fork, crash, are killed by SIGKILL, flood the service and reach their event limit; other peers say
nothing or send garbage; and a disk is full. Each process has its verdict, with each bug that was planted in it and no
other, or else a word that says why not. The service is asancol-listen with the command of asancol@.service. A line a
minute has its figures, and the last lines have all of them: by how much its memory grows is the slope of a line that
fits the samples best. The status is 1 if anything was not as it should be, or if memory, descriptors or processes grow.
"""

import argparse
import collections
import contextlib
import os
import random
import re
import signal
import subprocess
import sys
import tempfile
import threading
import time
from typing import Callable, Counter, Iterator, List, NamedTuple, Optional, Sequence, Tuple

sys.path.insert(0, f"{os.path.dirname(os.path.realpath(__file__))}/../..")  # where `testing` is

from service import HEADER, LISTEN, settings_of, text_of
from support import CC, TESTS, TOP, Failure, environment
from testing.lines import lines_of

CLASSES = {
    "past_heap": "heap-buffer-overflow", "freed": "heap-use-after-free", "freed_twice": "double-free",
    "wild_free": "bad-free", "past_stack": "stack-buffer-overflow", "past_global": "global-buffer-overflow",
    "poisoned": "use-after-poison",
}
# Within this many seconds of the end of a process its verdict is there.
PATIENCE = 120
SAMPLES_PER_MINUTE = 12
# What a line through the samples may grow from the first to the last, in KB: Python's own memory goes up and down.
MAX_GROWTH = 512
# The fit begins after so much of the time: imports and single allocations are no growth.
WARM = 0.1


class Verdict(NamedTuple):
    status: str
    end: str
    events: int
    reports: Counter[str]


class Sample(NamedTuple):
    seconds: float
    kilobytes: int
    descriptors: int
    processes: int


def slope_of(points: Sequence[Tuple[float, float]]) -> float:
    """Returns how steep the line is that fits these points best, by least squares."""
    if len(points) < 2:
        return 0
    middle_x, middle_y = (sum(it[axis] for it in points) / len(points) for axis in (0, 1))
    spread = sum((x - middle_x) ** 2 for x, _ in points)
    return sum((x - middle_x) * (y - middle_y) for x, y in points) / spread if spread else 0


def resident(number: int) -> int:
    return int(re.findall(r"^VmRSS:\s+(\d+) kB", text_of(f"/proc/{number}/status"), re.M)[0])


def children_of(number: int) -> int:
    return len(text_of(f"/proc/{number}/task/{number}/children").split())


class Service:
    """An asancol-listen, and what it has to say of each process."""

    def __init__(self, folder: str, asancol: str, front: Sequence[str] = ()) -> None:
        self.socket, self.folder, self.said = f"{folder}/socket", f"{folder}/results", f"{folder}/said"
        os.makedirs(self.folder, exist_ok=True)
        unit = settings_of(f"{TOP}/packaging/systemd/asancol@.service")
        argv = [LISTEN, self.socket, self.folder, *front, asancol, *unit["ExecStart"][0].split()[1:]]
        with open(self.said, "wb") as said:
            self.program = subprocess.Popen(argv, stderr=said, stdin=subprocess.DEVNULL)
        while not os.path.exists(self.socket) or not os.stat(self.socket).st_mode & 0o200:
            if self.program.poll() is not None:
                raise SystemExit(text_of(self.said))
            time.sleep(0.05)

    def find(self, process: int) -> Optional[Tuple[str, str]]:
        """Returns the first result of a process that has come, and takes it away: its status and its text."""
        names = sorted(it for it in os.listdir(self.folder) if it.split("-")[1] == str(process))
        if not names or names[0].endswith(".open"):
            return None
        path = f"{self.folder}/{names[0]}"
        text = text_of(path)
        os.remove(path)
        return names[0].rsplit(".", 1)[1], text

    def sample(self, seconds: float) -> Sample:
        number = self.program.pid
        return Sample(seconds, resident(number), len(os.listdir(f"/proc/{number}/fd")), children_of(number))

    def end(self) -> None:
        self.program.terminate()
        self.program.wait(PATIENCE)


class Soak:
    """What has happened so far, and a service for all scenarios."""

    def __init__(self, folder: str, asancol: str, seed: int) -> None:
        self.folder, self.asancol, self.seed = folder, asancol, seed
        self.program = f"{folder}/program"
        subprocess.run([CC, "-g", "-O1", "-pthread", f"{TESTS}/soak.c", "-o", self.program], check=True)
        self.service = Service(folder, asancol)
        self.lock = threading.Lock()
        self.counts: Counter[str] = collections.Counter()
        self.failures: List[str] = []
        self.longest = 0.0
        self.samples: List[Sample] = []
        self.begun = time.monotonic()

    def count(self, name: str, number: int = 1) -> None:
        with self.lock:
            self.counts[name] += number

    # What scenarios are made of.

    def start(self, *argv: str, as_hub: bool, **settings: str) -> "subprocess.Popen[str]":
        where = {"ASANCOL_HUB" if as_hub else "ASANCOL_SOCKET": self.service.socket}
        self.count("processes")
        return subprocess.Popen([self.program, *argv], env=environment(**where, **settings), text=True,
                                stdout=subprocess.PIPE, stderr=subprocess.PIPE)

    def verdict(self, process: int, service: Optional[Service] = None) -> Verdict:
        """Waits for the verdict of a process that has ended."""
        begun = time.monotonic()
        while True:
            found = (service or self.service).find(process)
            waited = time.monotonic() - begun
            if found is not None:
                break
            if waited > PATIENCE:
                raise Failure(f"process {process} has no verdict")
            time.sleep(0.02)
        with self.lock:
            self.longest = max(self.longest, waited)
        self.count("verdicts")
        status, text = found
        lines, ends = lines_of(text.encode(), is_whole=False)
        reports = collections.Counter(it.class_name for it in lines)
        if status == "4":
            return Verdict(status, "", 0, reports)
        if len(ends) != 1 or ends[0].reports != len(lines):
            raise Failure(f"process {process}: no good end line: status {status}, {text[-300:]!r}")
        return Verdict(status, ends[0].fate, ends[0].events, reports)

    def expect(self, process: int, end: str, bug: str, number: int = 1) -> Verdict:
        """The verdict of a process has this end, and this many reports of this bug and no others."""
        verdict = self.verdict(process)
        self.expect_reports(process, verdict, bug, number)
        status = ("1" if verdict.reports else "0") if end == "closed" else "3"
        if verdict.end != end or verdict.status != status:
            raise Failure(f"process {process}: it ended as {verdict.end}, wanted {end}; status {verdict.status}")
        return verdict

    def expect_reports(self, process: int, verdict: Verdict, bug: str, number: int = 1) -> None:
        planted = collections.Counter({CLASSES[bug]: number} if bug in CLASSES and number else {})
        self.count("planted", sum(planted.values()))
        self.count("found", sum((planted & verdict.reports).values()))
        self.count("false", sum((verdict.reports - planted).values()))
        if verdict.reports != planted:
            raise Failure(f"process {process}: reports {dict(verdict.reports)}, planted {dict(planted)}")

    # The scenarios: each is drawn again and again.

    def works(self, draw: random.Random, way: str = "works") -> None:
        """One that is sound, or has a bug, and ends by itself."""
        bug = draw.choice(["-", *CLASSES])
        program = self.start(way, bug, str(draw.choice([10, 100, 3000])), as_hub=draw.random() < 0.5)
        program.communicate()
        self.expect(program.pid, "closed" if way == "works" else "no-close", bug)

    def crashes(self, draw: random.Random) -> None:
        self.works(draw, "crashes")

    def threads(self, draw: random.Random) -> None:
        bug = draw.choice(list(CLASSES))
        program = self.start("threads", bug, as_hub=draw.random() < 0.5)
        program.communicate()
        self.expect(program.pid, "closed", bug, 4)

    def starts(self, draw: random.Random) -> None:
        """Many at once."""
        bugs = [draw.choice(["-", *CLASSES]) for _ in range(20)]
        programs = [self.start("works", bug, "50", as_hub=draw.random() < 0.5) for bug in bugs]
        for program, bug in zip(programs, bugs):
            program.communicate()
            self.expect(program.pid, "closed", bug)

    def children(self, draw: random.Random) -> None:
        """Children have verdicts of their own if the service is named as a hub, and a word otherwise."""
        bug, count, as_hub = draw.choice(list(CLASSES)), draw.randint(1, 8), draw.random() < 0.7
        program = self.start("children", bug, str(count), as_hub=as_hub)
        out, errors = program.communicate()
        self.count("processes", count)
        self.expect(program.pid, "closed", "-")
        for number in (int(it) for it in out.split()):
            if as_hub:
                self.expect(number, "closed", bug)
        if not as_hub:
            self.count("words", count)
            if errors.count("not recorded") != count:
                raise Failure(f"{count} children are not recorded, and the words are {errors!r}")

    def execs(self, draw: random.Random) -> None:
        """Both programs of a process have a verdict."""
        bug = draw.choice(list(CLASSES))
        program = self.start("execs", bug, as_hub=draw.random() < 0.5)
        program.communicate()
        self.expect(program.pid, "no-close", bug)
        self.expect(program.pid, "closed", bug)

    def killed(self, draw: random.Random) -> None:
        """By SIGKILL, while it works. As from a hub, the bug was sent before that; otherwise it may be missing."""
        bug, as_hub = draw.choice(list(CLASSES)), draw.random() < 0.7
        program = self.start("works_on", bug, as_hub=as_hub)
        if program.stdout is not None:
            program.stdout.readline()
        time.sleep(draw.random() ** 3 * 0.5)
        program.kill()
        program.communicate()
        self.count("killed")
        verdict = self.verdict(program.pid)
        self.expect_reports(program.pid, verdict, bug, 1 if as_hub else verdict.reports[CLASSES[bug]])
        if verdict.status != "3" or verdict.end == "closed":
            raise Failure(f"process {program.pid} was killed, and ended as {verdict.end}, status {verdict.status}")

    def flood(self, draw: random.Random) -> None:
        """Its end does not find room in the socket: if that takes too long, it says so."""
        number = draw.choice([100, 5000, 40000])
        program = self.start("flood", "past_heap", str(number), as_hub=draw.random() < 0.5)
        if "the end of the recording is lost" not in program.communicate()[1]:
            self.expect(program.pid, "closed", "past_heap", number)
            return
        self.count("words")
        verdict = self.verdict(program.pid)
        self.expect_reports(program.pid, verdict, "past_heap", min(number, sum(verdict.reports.values())))
        if verdict.status != "3" or verdict.end == "closed":
            raise Failure(f"process {program.pid} has lost its end, and ended as {verdict.end}")

    def limit(self, draw: random.Random) -> None:
        """At the event limit the trace has no close, and without a hub the program says so."""
        as_hub = draw.random() < 0.5
        settings = {"ASANCOL_LIMIT": "500", "ASANCOL_SEGMENTS": "0" if as_hub else ""}
        program = self.start("works", "past_heap", "3000", as_hub=as_hub, **settings)
        errors = program.communicate()[1]
        self.expect(program.pid, "no-close", "past_heap")
        self.count("words", 0 if as_hub else 1)
        if not as_hub and "events beyond the limit are missing" not in errors:
            raise Failure(f"no word of the limit: {errors!r}")

    def segments(self, draw: random.Random) -> None:
        """With a hub a process goes on past the limit in another connection: all but the last have as many events."""
        limit = 500
        program = self.start("works", "past_heap", "1000", as_hub=True, ASANCOL_LIMIT=str(limit))
        program.communicate()
        verdict = self.expect(program.pid, "closed", "past_heap")
        while verdict.events == limit:
            self.count("segments")
            verdict = self.expect(program.pid, "closed", "-")

    def peer(self, data: bytes, seconds: float) -> int:
        """A process that connects, sends this, holds on and ends. Answers its number."""
        line = ("import os, socket, sys, time\ns = socket.socket(socket.AF_UNIX)\ns.connect(sys.argv[1])\n"
                "s.sendall(sys.stdin.buffer.read())\ntime.sleep(float(sys.argv[2]))")
        argv = [sys.executable, "-IS", "-c", line, self.service.socket, str(seconds)]
        program = subprocess.Popen(argv, stdin=subprocess.PIPE, stderr=subprocess.PIPE)
        program.communicate(data)
        self.count("processes")
        return program.pid

    def silent(self, draw: random.Random) -> None:
        data, end = draw.choice([(b"", "truncated"), (HEADER[:5], "truncated"), (HEADER, "no-close"),
                                 (HEADER + b"\4" + bytes(8), "no-close"), (HEADER + b"\1\1", "truncated")])
        number = self.peer(data, draw.random() * 20)
        self.count("silent")
        self.expect(number, end, "-")

    def garbage(self, draw: random.Random) -> None:
        """Whatever it is, it has an end."""
        data = bytes(draw.choice([0, 1, 3, 4, 5, 6, draw.randrange(256)]) for _ in range(draw.choice([8, 60, 5000])))
        number = self.peer(draw.choice([b"", HEADER]) + data, 0)
        self.count("garbage")
        if self.verdict(number).status not in ("0", "1", "3"):
            raise Failure("garbage has another status")

    def full_trace(self, draw: random.Random) -> None:
        """A trace on a full disk: the program runs on, and says so."""
        with small_disk(f"{self.folder}/disk-{threading.get_ident()}") as (disk, front):
            trace = f"{disk}/%p.trace"
            argv = [*front, self.program, "works", "past_heap", "200000"]
            ran = subprocess.run(argv, env=environment(ASANCOL_TRACE=trace), stderr=subprocess.PIPE, text=True,
                                 check=False)
        self.count("processes")
        self.count("words")
        self.count("full")
        word = re.search(r"^asancol: .*(No space left on device|File too large)$", ran.stderr, re.M)
        if ran.returncode != 0 or word is None:
            raise Failure(f"no word of a full disk: status {ran.returncode}, {ran.stderr!r}")

    def full_results(self, draw: random.Random) -> None:
        """The service itself has no room for its lines: the status says so."""
        folder = f"{self.folder}/full-{threading.get_ident()}"
        os.makedirs(folder, exist_ok=True)
        with small_disk(f"{folder}/results") as (_, front):
            service = Service(folder, self.asancol, front)
            try:
                argv = [self.program, "flood", "past_heap", "40000"]
                program = subprocess.Popen(argv, env=environment(ASANCOL_SOCKET=service.socket))
                program.wait()
                self.count("processes")
                self.count("full")
                verdict = self.verdict(program.pid, service)
            finally:
                service.end()
        if program.returncode != 0 or verdict.status != "4" or set(verdict.reports) - {CLASSES["past_heap"]}:
            raise Failure(f"on a full disk: {program.returncode}, {verdict}")

    def scenarios(self) -> List[Callable[[random.Random], None]]:
        often: List[Callable[[random.Random], None]]
        often = [self.works, self.crashes, self.threads, self.children, self.execs, self.killed, self.killed]
        return [*often, *often, self.starts, self.flood, self.limit, self.segments, self.silent, self.garbage,
                self.full_trace, self.full_results]

    # The run.

    def run_worker(self, number: int, end: float) -> None:
        draw = random.Random(f"{self.seed}/{number}")
        while time.monotonic() < end:
            scenario = draw.choice(self.scenarios())
            try:
                scenario(draw)
            except Exception as error:  # whatever it is, it is counted, and the others go on
                with self.lock:
                    self.failures.append(f"{scenario.__name__}: {error}")
                print(f"FAILED {self.failures[-1]}", flush=True)

    def watch(self, end: float) -> None:
        """Samples the service, and prints a line each minute."""
        while time.monotonic() < end:
            for _ in range(SAMPLES_PER_MINUTE):
                self.samples.append(self.service.sample(time.monotonic() - self.begun))
                time.sleep(min(60 / SAMPLES_PER_MINUTE, max(end - time.monotonic(), 0)))
            self.print_line()

    def print_line(self) -> None:
        last, of = self.samples[-1], self.counts
        print(f"{last.seconds / 60:5.0f} min: {of['processes']} processes, {of['killed']} killed, "
              f"{of['verdicts']} verdicts, {of['words']} words, {of['found']} of {of['planted']} planted found, "
              f"{of['false']} false; service: {last.kilobytes} KB, {last.descriptors} descriptors, "
              f"{last.processes} processes", flush=True)

    def run(self, hours: float, workers: int) -> None:
        before = self.service.sample(0)
        end = self.begun + hours * 3600
        threads = [threading.Thread(target=self.run_worker, args=(it, end), daemon=True) for it in range(workers)]
        for thread in threads:
            thread.start()
        self.watch(end)
        for thread in threads:
            thread.join()
        self.expect_quiet(before)
        self.service.end()

    def expect_quiet(self, before: Sample) -> None:
        """Once all have ended, the service holds what it held before the first, and has left nothing."""
        deadline = time.monotonic() + 30
        while True:
            after = self.service.sample(time.monotonic() - self.begun)
            if (after.descriptors, after.processes) == (before.descriptors, 0) or time.monotonic() > deadline:
                break
            time.sleep(0.2)
        self.samples.append(after)
        if (after.descriptors, after.processes) != (before.descriptors, 0):
            self.failures.append(f"it held {before.descriptors} descriptors, and holds {after.descriptors}, and "
                                 f"{after.processes} processes")
        left = os.listdir(self.service.folder)
        if left or text_of(self.service.said):
            self.failures.append(f"results that nobody waits for: {left}; it has said {text_of(self.service.said)!r}")

    def summary(self) -> bool:
        """Prints what came of it. False: something was not as it should be."""
        warm = [it for it in self.samples if it.seconds >= WARM * self.samples[-1].seconds]
        slope = slope_of([(it.seconds / 3600, it.kilobytes) for it in warm])
        growth = slope * (warm[-1].seconds - warm[0].seconds) / 3600
        if growth > MAX_GROWTH:
            self.failures.append(f"memory grows by {growth:.0f} KB")
        of, last = self.counts, self.samples[-1]
        print(f"seed {self.seed}, {last.seconds / 60:.1f} minutes: {of['processes']} processes, of which "
              f"{of['killed']} killed, {of['silent']} silent, {of['garbage']} garbage, {of['full']} with a full disk; "
              f"{of['segments']} further segments\n"
              f"verdicts {of['verdicts']}, words {of['words']}, longest wait {self.longest:.1f} s\n"
              f"planted {of['planted']}, found {of['found']}, false {of['false']}\n"
              f"service: {warm[0].kilobytes} KB warm, {last.kilobytes} KB at the end, most "
              f"{max(it.kilobytes for it in self.samples)} KB, slope {slope:+.1f} KB an hour\n"
              f"descriptors {self.samples[0].descriptors}, most {max(it.descriptors for it in self.samples)}, "
              f"at the end {last.descriptors}; processes most {max(it.processes for it in self.samples)}, at the end "
              f"{last.processes}\n{len(self.failures)} failures", flush=True)
        return not self.failures


@contextlib.contextmanager
def small_disk(path: str) -> Iterator[Tuple[str, List[str]]]:
    """A folder with room for 256 KB; if none can be mounted, words that set a limit on the size of each file."""
    os.makedirs(path, exist_ok=True)
    mount = ["mount", "-t", "tmpfs", "-o", "size=256k", "soak", path]
    if subprocess.run(mount, stderr=subprocess.DEVNULL, check=False).returncode != 0:
        yield path, ["prlimit", "--fsize=262144", "--"]
        return
    try:
        yield path, []
    finally:
        subprocess.run(["umount", path], check=True)


def main() -> int:
    reader = argparse.ArgumentParser(usage=(__doc__ or "").split("usage: ")[1].split("\n")[0])
    reader.add_argument("--hours", type=float, default=1)
    reader.add_argument("--workers", type=int, default=2)
    reader.add_argument("--seed", type=int, default=1)
    reader.add_argument("asancol")
    request = reader.parse_args()
    signal.signal(signal.SIGTERM, lambda number, frame: sys.exit(143))
    with tempfile.TemporaryDirectory(prefix="asancol-soak-") as folder:
        soak = Soak(folder, os.path.abspath(request.asancol), request.seed)
        try:
            soak.run(request.hours, request.workers)
        finally:
            soak.service.program.kill()
        return 0 if soak.summary() else 1


if __name__ == "__main__":
    sys.exit(main())
