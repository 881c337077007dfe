#!/usr/bin/env python3
"""Finds a bug as `make demo` shows it: with a recorded program if a C compiler is there, and else
in stored traces.

usage: tools/demo.py PROGRAM -- COMMAND..    runs a recorded command under asancol-run
       tools/demo.py PROGRAM TRACE..         checks stored traces

PROGRAM is a built asancol, or - for one that is built for this and not proved. The status is 0 if
the bug was found.
"""

import os
import shlex
import subprocess
import sys
from typing import List

from unproved import TOP, Run, by_try

# The status of asancol-run if there is a report.
REPORTED = 99

NOT_PROVED = "This run is by a program that is not proved yet; `make` proves and builds ./asancol."


def run_command(program: str, command: List[str]) -> bool:
    """Runs a command under asancol-run, and returns whether it has a report."""
    argv = ["run/asancol-run", "--", *command]
    checker = f"{TOP}/tools/unproved.py" if program == "-" else os.path.abspath(program)
    print(shlex.join(argv), flush=True)
    ran = subprocess.run(argv, cwd=TOP, env={**os.environ, "ASANCOL": checker})
    print(f"status {ran.returncode}", flush=True)
    return ran.returncode == REPORTED


def by_program(program: str, traces: List[str]) -> List[Run]:
    """Returns what a built program says of each trace."""
    runs = []
    for trace in traces:
        with open(trace, "rb") as file:
            ran = subprocess.run([program], stdin=file, stdout=subprocess.PIPE, text=True)
        runs.append((ran.stdout, ran.returncode))
    return runs


def read(path: str) -> bytes:
    with open(path, "rb") as file:
        return file.read()


def show_traces(program: str, traces: List[str]) -> bool:
    """Prints the report on each trace, as a shell shows it, and returns whether all have a
    report."""
    runs = by_try([read(it) for it in traces]) if program == "-" else by_program(program, traces)
    for trace, (text, status) in zip(traces, runs):
        print(f"{'asancol' if program == '-' else program} < {trace}\n{text}status {status}")
    return all(status == 1 for _, status in runs)


def main(argv: List[str]) -> int:
    if len(argv) < 2 or argv[1:] == ["--"]:
        print((__doc__ or "").split("\n\n")[1], file=sys.stderr)
        return 2
    program, *rest = argv
    if program == "-":
        print(NOT_PROVED, flush=True)
    found = run_command(program, rest[1:]) if rest[0] == "--" else show_traces(program, rest)
    return 0 if found else 1


if __name__ == "__main__":
    sys.exit(main(sys.argv[1:]))
