#!/usr/bin/env python3
"""Runs built programs with words, and compares what they write and the status they end with.

usage: tests/runs.py [--list] [--junit FILE] PROGRAM.. [WORD..]

The cases are in the modules of tests/runs, and each runs in its own folder. A word chooses the case whose name it is,
or else those whose names have it. The last line is 'N passed, M failed', and the status is 1 if a case failed.
"""

import os
import sys

sys.path.insert(0, f"{os.path.dirname(os.path.realpath(__file__))}/..")  # where `testing` is

import program

if __name__ == "__main__":
    folder = f"{os.path.dirname(os.path.abspath(__file__))}/runs"
    sys.exit(program.main(__doc__, lambda suite: suite.discover(folder)))
