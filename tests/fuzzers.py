#!/usr/bin/env python3
"""Runs the parsers of the recorder, of asancol-cc and of asancol-run under the compilers' own sanitizers.

usage: tests/fuzzers.py [--seconds S] [--list] [--junit FILE] [WORD..]

libFuzzer draws inputs for each target, for S seconds: testing/fuzzers.py says more. With words, only tests whose names
have one of them. The last line is 'N passed, M failed'. It needs a built recorder.
"""

import os
import sys
from typing import Sequence

sys.path.insert(0, f"{os.path.dirname(os.path.realpath(__file__))}/..")  # where `testing` is

from testing import Suite, fuzzers, suite


def main() -> int:
    reader = suite.reader_of(__doc__)
    reader.add_argument("--seconds", type=float, default=5)
    request = suite.read(reader)

    def make(words: Sequence[str]) -> Suite:
        made = Suite(words)
        fuzzers.add_tests(made, request.seconds, ["recorder", "asancol-cc", "asancol-run"])
        return made

    return suite.run(make, request)


if __name__ == "__main__":
    sys.exit(main())
