#!/usr/bin/env python3
"""Runs a program of 200 million mallocs and frees in four threads, with one bug at its end, and looks for that bug.

usage: recorder/tests/segments_stress.py [--part N] [--files] ASANCOL

It is recorded in a dozen segments or more, which asancol-run checks while it runs: it has to find the bug, and nothing
else. With --part N the program makes one in N of the events. With --files there is no asancol-run: the program writes
files, of which all are closed, and they are checked afterwards. 200 million take some gigabytes there.

A line says how long it took, and the status is 1 if something was wrong. It takes a few minutes.
"""

import argparse
import glob
import json
import os
import subprocess
import sys
import tempfile
import time
from typing import List

sys.path.insert(0, f"{os.path.dirname(os.path.realpath(__file__))}/../..")  # where `testing` is

from support import RECORDER, TESTS, build, environment

ROUNDS = 25_000_000  # a thread's: a malloc and a free each
RUN = f"{os.path.dirname(RECORDER)}/run/asancol-run"


def by_files(asancol: str, argv: List[str], folder: str) -> str:
    """The mistake in the files of a run, or nothing."""
    ran = subprocess.run(argv, env=environment(ASANCOL_TRACE=f"{folder}/t.trace"), capture_output=True, check=False)
    if ran.returncode != 0 or ran.stderr:
        return f"status {ran.returncode}: {ran.stderr.decode()}"
    reports = 0
    for path in glob.glob(f"{folder}/t*.trace"):
        said = subprocess.run([asancol, "check", path], stdout=subprocess.PIPE, text=True, check=False).stdout
        lines = said.splitlines()
        if not lines or lines[-1].split()[2] != "closed":
            return f"{path}: {lines[-1:]}"
        reports += len(lines) - 1
    return "" if reports == 1 else f"{reports} reports"


def by_hub(asancol: str, argv: List[str], folder: str) -> str:
    result = f"{folder}/result.jsonl"
    settings = environment(PATH=f"{os.path.dirname(asancol)}:{os.environ['PATH']}")
    run = [RUN, "--json", result, "--", *argv]
    ran = subprocess.run(run, env=settings, capture_output=True, text=True, check=False)
    if ran.returncode != 99 or "INCOMPLETE" in ran.stderr:
        return f"status {ran.returncode}: {ran.stderr}"
    with open(result, encoding="utf-8") as file:
        places = [it for it in map(json.loads, file) if it.get("type") == "finding"]
    return "" if [it.get("count") for it in places] == [1] else f"findings {places}"


def main() -> int:
    parser = argparse.ArgumentParser(description="records a program of 200 million mallocs and frees")
    parser.add_argument("--part", type=int, default=1)
    parser.add_argument("--files", action="store_true")
    parser.add_argument("asancol")
    options = parser.parse_args()
    asancol, rounds = os.path.abspath(options.asancol), ROUNDS // options.part
    with tempfile.TemporaryDirectory(prefix="asancol-segments-") as folder:
        program = f"{folder}/segments"
        build([f"{RECORDER}/asancol-cc", "-g", "-O2", "-w", "-pthread", f"{TESTS}/segments.c", "-o", program], folder)
        start = time.monotonic()
        argv = [program, "threads", str(rounds), str(rounds - 1)]
        wrong = by_files(asancol, argv, folder) if options.files else by_hub(asancol, argv, folder)
        print(f"{rounds * 8} events, {time.monotonic() - start:.0f} seconds: {wrong or 'as it should be'}")
    return 1 if wrong else 0


if __name__ == "__main__":
    sys.exit(main())
