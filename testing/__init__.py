"""What all tests stand on.

- `expectations`: unexpected results of a test, and omitted tests.
- `programs`: the programs of this tree, environments without settings of asancol, runs, and waiting.
- `suite`: finds tests, runs them side by side, and says what came of them.
- `watch`: ends tests that hang.
- `traces`: traces and their records, built and read.
- `golden`: the rows of examples/golden, and what asancol prints of each.
- `side`: side memories, written here, and read by what asancol-report reads them with.
- `lines`: the lines of reports and of ends.
- `fuzzers`: the parsers of the C programs under sanitizers and libFuzzer.
- `fake_asancol.c`: a program that prints what asancol prints, for the tests of the C programs.

Each script of tests puts the top of the tree into its path, so that it finds this wherever it is run. What
asancol-report is made of, `asancol_report`, and the modules of tools/ are found too.
"""

import sys

from .expectations import Failure, LeftOut, expect, expect_in, expect_not_in, leave_out
from .programs import NO_SETTINGS, TOP, Ran, compilers_there, environment, wait_until, write_text
from .suite import Later, Suite, test

sys.path += [f"{TOP}/report", f"{TOP}/tools"]

__all__ = [
    "Failure", "LeftOut", "Later", "NO_SETTINGS", "Ran", "Suite", "TOP", "compilers_there", "environment", "expect",
    "expect_in", "expect_not_in", "leave_out", "test", "wait_until", "write_text",
]
