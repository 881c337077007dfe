#!/usr/bin/env python3
"""Runs programs under asancol-run, as a user would, and looks at what it prints and how it ends; and the tests of
asancol-report.

usage: run/tests/check.py [--list] [--junit FILE] [--quick | --rest] ASANCOL [WORD..]

A word chooses the test whose name it is, or else those whose names have it. The last line is 'N passed, M failed', and
the status is 1 if a test failed. A missing tool, such as bubblewrap, is named in a line, and left out. If SANITIZE is
set, after make -C run asancol-run-sanitized, the tests run the asancol-run that the compiler's AddressSanitizer and
UndefinedBehaviorSanitizer watch, and each finding is a failure.
"""

import os
import sys
from typing import Sequence

sys.path.insert(0, f"{os.path.dirname(os.path.realpath(__file__))}/../..")  # where `testing` is

from support import TESTS, Suite
from testing import TOP, fuzzers, suite


def tests_of(asancol: str, words: Sequence[str]) -> Suite:
    found = Suite(asancol, words)
    found.discover(TESTS)
    found.discover(f"{TOP}/report/tests")
    fuzzers.add_tests(found, 2, ["asancol-run"], "fuzzers: ")
    return found


if __name__ == "__main__":
    sys.exit(suite.main(tests_of, __doc__))
