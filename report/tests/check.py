#!/usr/bin/env python3
"""Runs asancol-report on side memories and verdicts that are written here.

usage: report/tests/check.py [--list] [--junit FILE] [WORD..]

A word chooses the test whose name it is, or else those whose names have it. The last line is 'N passed, M failed', and
the status is 1 if a test failed. A missing tool (a symbolizer, jsonschema, Chromium) is named in a line, and left
out. `make check-run` runs these too.
"""

import os
import sys
from typing import Sequence

sys.path.insert(0, f"{os.path.dirname(os.path.realpath(__file__))}/../..")  # where `testing` is

from testing import Suite, suite


def tests_of(words: Sequence[str]) -> Suite:
    found = Suite(words)
    found.discover(os.path.dirname(os.path.abspath(__file__)))
    return found


if __name__ == "__main__":
    sys.exit(suite.run(tests_of, suite.read(suite.reader_of(__doc__))))
