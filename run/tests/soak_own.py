#!/usr/bin/env python3
"""Starts programs that check themselves, kills half of them at drawn moments, and looks at the remains.

usage: run/tests/soak_own.py [--programs N] [--workers N] [--seed S] ASANCOL

A program that is not killed ends with its own status, or with 99 if it has a bug. A killed one ends by the signal, or
as it would have. None with a bug ends with 0. Afterwards no process, no socket and no file of a run is left. The last
line has the numbers, and the status is 1 if anything was not as it should be.
"""

import argparse
import collections
import concurrent.futures
import os
import random
import signal
import subprocess
import sys
import tempfile
import time
from typing import Counter, Dict, List, NamedTuple, Set

sys.path.insert(0, f"{os.path.dirname(os.path.realpath(__file__))}/../..")  # where `testing` is

from support import CC
from testing import environment
from testing.programs import call

SOURCE = """
#include <stdlib.h>
#include <string.h>
#include <sys/wait.h>
#include <unistd.h>
int main(int count, char **argv) {
    const char *way = count > 1 ? argv[1] : "";
    char *volatile block = malloc(8);
    int forks = strchr(way, 'f') != NULL, has_bug = strchr(way, 'b') != NULL, status = 0;
    if (forks && fork() == 0) {
        block[has_bug ? 8 : 7] = 1;
        _exit(0);
    }
    if (forks) wait(&status);
    else block[has_bug ? 8 : 7] = 1;
    if (strchr(way, 's') != NULL) usleep(3000);
    free(block);
    return strchr(way, '7') != NULL ? 7 : 0; }
"""
WAYS = ["", "s", "7", "f", "fs", "s7"]
# One program in this many has a bug, and the most seconds until a kill.
BUGS, LATEST = 20, 0.006


class Start(NamedTuple):
    way: str
    kill_after: float  # below 0: it is not killed


def draw(source: random.Random) -> Start:
    way = source.choice(WAYS) + ("b" if source.randrange(BUGS) == 0 else "")
    return Start(way, source.random() * LATEST if source.randrange(2) else -1)


def run_one(program: str, start: Start, settings: Dict[str, str]) -> str:
    """Returns how it ended, and names the mistake."""
    argv = [program, *([start.way] if start.way else [])]
    with subprocess.Popen(argv, env=settings, stdin=subprocess.DEVNULL, stdout=subprocess.DEVNULL,
                          stderr=subprocess.DEVNULL) as started:
        if start.kill_after >= 0:
            time.sleep(start.kill_after)
            started.send_signal(signal.SIGKILL)
        status = started.wait(120)
    wanted = 99 if "b" in start.way else 7 if "7" in start.way else 0
    if status == -signal.SIGKILL and start.kill_after >= 0:
        return "killed"
    return f"ended with {status}" if status == wanted else f"WRONG: {start.way!r} ended with {status}, not {wanted}"


def sockets() -> Set[str]:
    with open("/proc/net/unix", encoding="utf-8", errors="replace") as file:
        return {line.split()[-1] for line in file if "@/asancol-" in line}


def processes_of(folder: str) -> List[str]:
    """Those that have the folder in their environment: zombies have none, and are their parents' to reap."""
    found = []
    for number in filter(str.isdigit, os.listdir("/proc")):
        try:
            with open(f"/proc/{number}/environ", "rb") as file:
                if f"TMPDIR={folder}".encode() in file.read():
                    found.append(number)
        except OSError:
            continue
    return found


def remains(folder: str, before: Set[str]) -> List[str]:
    left = [f"a process: {it}" for it in processes_of(folder)]
    left += [f"a socket: {it}" for it in sockets() - before]
    return left + [f"a file: {it}" for it in os.listdir(folder)]


def soak(asancol: str, programs: int, workers: int, seed: int) -> int:
    source, before, ends = random.Random(seed), sockets(), collections.Counter()  # type: ignore[var-annotated]
    with tempfile.TemporaryDirectory() as built, tempfile.TemporaryDirectory() as folder:
        with open(f"{built}/p.c", "w", encoding="ascii") as file:
            file.write(SOURCE)
        call([CC, "-g", "-w", "p.c", "-o", "p"], cwd=built, check=True)
        # Without a report asancol-run prints the reports itself, which is quick.
        settings = environment(ASANCOL=asancol, ASANCOL_RUN="", ASANCOL_REPORT="/proc/none", TMPDIR=folder)
        with concurrent.futures.ThreadPoolExecutor(workers) as pool:
            starts = [draw(source) for _ in range(programs)]
            for end in pool.map(lambda it: run_one(f"{built}/p", it, settings), starts):
                ends[end] += 1
        deadline = time.monotonic() + 60
        while remains(folder, before) and time.monotonic() < deadline:
            time.sleep(0.5)
        left = remains(folder, before)
    return say(ends, left)


def say(ends: Counter[str], left: List[str]) -> int:
    for it in left[:20]:
        print(f"left: {it}")
    for end, count in sorted(ends.items()):
        print(f"{count:>8} {end}")
    wrong = len(left) + sum(count for end, count in ends.items() if end.startswith("WRONG"))
    print(f"{sum(ends.values())} programs, {wrong} wrong")
    return 1 if wrong else 0


def main() -> int:
    parser = argparse.ArgumentParser(usage=__doc__)
    parser.add_argument("--programs", type=int, default=100_000)
    parser.add_argument("--workers", type=int, default=os.cpu_count() or 1)
    parser.add_argument("--seed", type=int, default=1)
    parser.add_argument("asancol")
    given = parser.parse_args()
    return soak(os.path.abspath(given.asancol), given.programs, given.workers, given.seed)


if __name__ == "__main__":
    sys.exit(main())
