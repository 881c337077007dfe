#!/usr/bin/env python3
"""Records small programs under each compiler, checks the traces, and compares.

usage: recorder/tests/check.py [--list] [--junit FILE] [--quick | --rest] ASANCOL [WORD..]

A word chooses the test whose name it is, or else those whose names have it. The last line is 'N passed, M failed', and
the status is 1 if a test failed. A missing tool (a compiler, its AddressSanitizer) is named in a line, and left out.
If SANITIZE is set, the parsers of the recorder and of asancol-cc, and what its threads share, run under the compilers'
own sanitizers too.
"""

import os
import sys

sys.path.insert(0, f"{os.path.dirname(os.path.realpath(__file__))}/../..")  # where `testing` is

from support import Suite
from testing import suite

if __name__ == "__main__":
    sys.exit(suite.main(Suite, __doc__))
