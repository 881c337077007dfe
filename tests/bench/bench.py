#!/usr/bin/env python3
"""Measures what checking costs, and writes the page of figures.

usage: tests/bench/bench.py [--rounds N] [--millions N] [--peer PEER] [--page FILE] PROGRAM [WORD..]

Traces are made by traces.c, which a C compiler has to build. Each is checked on one thread, from standard input, with
and without huge pages, at one and at N million events (16), interleaved; the least processor time of the rounds (9)
counts, user and system. Then eight traces by `check`, one free that lets a million blocks go, and short histories. With
words, only workloads whose names have one of them. With --peer another program with the same output runs between
PROGRAM's runs, and the table says how many times its time PROGRAM took. With --page the tables of that file are
replaced.
"""

import argparse
import math
import os
import platform
import re
import shutil
import subprocess
import sys
import tempfile
from typing import Dict, List, NamedTuple, Optional, Tuple

HERE = os.path.dirname(os.path.abspath(__file__))
sys.path.insert(0, f"{HERE}/../..")  # where `testing` is

from testing import measuring

WORKLOADS = {
    "local": "loads and stores of a stack and a few blocks, 2 % mallocs and frees",
    "buggy": "the same, 1 % of them bad",
    "random": "loads and stores all over a million blocks",
    "poison": "loads and stores between large poisoned regions",
    "churn": "80 % mallocs and frees",
}
MILLION = 1_000_000
HUGE_PAGES = "glibc.malloc.hugetlb=1"
# Of the traces that are checked side by side.
FILES, FILES_WORKERS = 8, 4


class Cost(NamedTuple):
    """What a run took: processor and wall seconds, and at most this many bytes of memory."""

    processor: float
    wall: float
    memory: int


def run(argv: List[str], source: Optional[str], is_huge: bool) -> Cost:
    environment = {name: value for name, value in os.environ.items() if name != "GLIBC_TUNABLES"}
    if is_huge:
        environment["GLIBC_TUNABLES"] = HUGE_PAGES
    with open(source or os.devnull, "rb") as file:
        used = measuring.measure(argv, stdin=file, stdout=subprocess.DEVNULL, env=environment)
    if used.status not in (0, 1):
        sys.exit(f"bench.py: {argv[0]} ended with status {used.status}")
    return Cost(used.processor, used.wall, used.memory)


def least(costs: List[Cost]) -> Cost:
    return Cost(*(min(it) for it in zip(*costs)))


# A program, a number of events, and whether it has huge pages.
Way = Tuple[str, int, bool]


class Bench:
    """Runs of one program, and perhaps of a peer, over traces in one folder."""

    def __init__(self, program: str, peer: Optional[str], folder: str, rounds: int) -> None:
        self.program, self.folder, self.rounds = os.path.abspath(program), folder, rounds
        self.peer = peer and os.path.abspath(peer)
        self.maker = f"{folder}/traces"
        compiler = os.environ.get("CC", "cc")
        subprocess.run([compiler, "-O2", f"{HERE}/traces.c", "-o", self.maker], check=True)

    def trace(self, workload: str, events: int) -> str:
        path = f"{self.folder}/{workload}.{events}"
        if not os.path.exists(path):
            subprocess.run([self.maker, workload, str(events), path], check=True)
        return path

    def one_thread(self, workload: str, sizes: List[int]) -> Dict[Way, Cost]:
        """Returns the cost at each size, with and without huge pages, of the program and of the peer."""
        programs = [self.program, *([self.peer] if self.peer else [])]
        ways = [(it, events, is_huge) for events in sizes for is_huge in (False, True) for it in programs]
        seen: Dict[Way, List[Cost]] = {way: [] for way in ways}
        for _ in range(self.rounds):
            for way in ways:
                seen[way].append(run([way[0]], self.trace(workload, way[1]), way[2]))
        return {way: least(costs) for way, costs in seen.items()}

    def files(self, events: int) -> Tuple[Cost, Cost]:
        """Returns the cost of some files one after another, and side by side."""
        path = self.trace("local", events)
        argv = [self.program, "check", "--workers", str(FILES_WORKERS)] + [path] * FILES
        alone = least([run([self.program], path, True) for _ in range(self.rounds)])
        together = least([run(argv, None, True) for _ in range(self.rounds)])
        return Cost(alone.processor * FILES, alone.wall * FILES, alone.memory * FILES), together

    def release(self) -> float:
        """Returns the seconds that one free takes which lets a million blocks go."""
        path = self.trace("release", 2 * MILLION + 2)
        size = os.path.getsize(path)
        with open(path, "rb") as file:
            data = file.read()
        before = f"{self.folder}/before"
        with open(before, "wb") as file:
            file.write(data[: size - 10] + data[-1:])  # without the free
        costs = [least([run([self.program], it, True) for _ in range(self.rounds)]) for it in (path, before)]
        return max(0.0, costs[0].processor - costs[1].processor)

    def histories(self) -> Cost:
        """Returns the cost of a million events, a hundred of which at a time are a history."""
        path = self.trace("anew", MILLION)
        return least([run([self.program], path, True) for _ in range(self.rounds)])


def table_of_workloads(bench: Bench, names: List[str], millions: int) -> List[str]:
    small, large = MILLION, millions * MILLION
    heads = [f"trace of {millions} million events", "ns an event", "with huge pages", "memory", "growth"]
    heads += ["of the peer's time", "with huge pages", "growth of the peer"] if bench.peer else []
    lines = [f"| {' | '.join(heads)} |", "|---" * len(heads) + "|"]
    for name in names:
        costs = bench.one_thread(name, [small, large])

        def nanoseconds(program: str, is_huge: bool) -> float:
            return costs[program, large, is_huge].processor / large * 1e9

        def growth(program: str) -> str:
            times = costs[program, large, True].processor / costs[program, small, True].processor
            return f"{math.log(times) / math.log(millions) if millions > 1 else 1.0:.2f}"

        own, peer = bench.program, bench.peer
        cells = [f"{name}: {WORKLOADS[name]}"]
        cells += [f"{nanoseconds(own, is_huge):.0f}" for is_huge in (False, True)]
        cells += [f"{costs[own, large, False].memory / 1e6:.0f} MB", growth(own)]
        if peer:
            cells += [f"{nanoseconds(own, it) / nanoseconds(peer, it):.2f}" for it in (False, True)]
            cells.append(growth(peer))
        lines.append(f"| {' | '.join(cells)} |")
    return lines


def table_of_others(bench: Bench) -> List[str]:
    alone, together = bench.files(4 * MILLION)
    histories = bench.histories()
    return [
        "| what | processor seconds | seconds |",
        "|---|---|---|",
        f"| {FILES} traces of 4 million events one after another, on one thread | {alone.processor:.2f} | "
        f"{alone.wall:.2f} |",
        f"| the same by one `check` with {FILES_WORKERS} workers | {together.processor:.2f} | {together.wall:.2f} |",
        f"| one free that lets a million blocks go | {bench.release():.2f} | |",
        f"| a million events in histories of 100 | {histories.processor:.2f} | {histories.wall:.2f} |",
    ]


def machine() -> str:
    name = platform.machine()
    with open("/proc/cpuinfo", encoding="utf-8") as file:
        found = re.search(r"model name\s*: (.*)", file.read())
    return f"{found[1] if found else name}, {os.cpu_count()} processors"


def replace_tables(page: str, tables: List[str]) -> None:
    """Puts each table in the place of the one that the page has, and the line of the machine."""
    with open(page, encoding="utf-8") as file:
        text = file.read()
    rest = iter(tables)
    text = re.sub(r"(?:^\|.*\n)+", lambda _: next(rest) + "\n", text, flags=re.M)
    text = re.sub(r"(?<=^Measured on ).*(?=\.$)", machine(), text, flags=re.M)
    with open(page, "w", encoding="utf-8") as file:
        file.write(text)


def main() -> int:
    parser = argparse.ArgumentParser(description=(__doc__ or "").split("\n")[0])
    parser.add_argument("--rounds", type=int, default=9)
    parser.add_argument("--millions", type=int, default=16)
    parser.add_argument("--peer")
    parser.add_argument("--page")
    parser.add_argument("program")
    parser.add_argument("words", nargs="*")
    options = parser.parse_args()
    names = [it for it in WORKLOADS if not options.words or any(word in it for word in options.words)]
    folder = tempfile.mkdtemp(prefix="asancol-bench-")
    try:
        bench = Bench(options.program, options.peer, folder, options.rounds)
        print(f"Measured on {machine()}.", flush=True)
        tables = ["\n".join(table_of_workloads(bench, names, options.millions))]
        print(tables[0], flush=True)
        if not options.words:
            tables.append("\n".join(table_of_others(bench)))
            print(tables[1], flush=True)
    finally:
        shutil.rmtree(folder, ignore_errors=True)
    if options.page and not options.words:
        replace_tables(options.page, tables)
    return 0


if __name__ == "__main__":
    sys.exit(main())
