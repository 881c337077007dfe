"""A process that closes all its descriptors connects again, and what it does is seen; or it is said that it is not."""

import os
import re
from typing import Sequence

from support import CC, REPORT, TESTS, Later, Suite, compilers_there, expect, expect_ran
from testing.programs import call

# By the way: how many reports there are, in how many processes, and how the run ends.
WAYS = [
    ("nothing", 0, 2, 0), ("after", 1, 2, 99), ("both", 2, 2, 99), ("often", 5, 2, 99), ("taken", 1, 2, 99),
    ("twice", 1, 2, 99), ("killed", 1, 2, 99), ("aborts", 1, 2, 99), ("execs", 3, 4, 99), ("sleeps", 0, 2, 0),
    ("vfork", 1, 2, 99), ("daemon", 2, 3, 99), ("threads", 20, 2, 99),
]


def build(compiler: str, program: str) -> None:
    os.makedirs(os.path.dirname(program), exist_ok=True)
    environment = {**os.environ, "ASANCOL_CC": compiler}
    argv = [CC, "-g", "-O1", "-w", "-pthread", f"{TESTS}/closes.c", "-o", program]
    call(argv, check=True, env=environment)


def run_way(suite: Suite, folder: str, program: str, way: Sequence[str], *options: str, **settings: str) -> str:
    """The text on a way, after `status `."""
    ran = suite.run(*options, "--leaks=no", "--", program, *way, cwd=folder, ASANCOL_REPORT=REPORT, **settings)
    return f"status {ran.status} {ran.err}"


# Data sent when the descriptors are closed may be lost, which is a matter of microseconds: then it is said.
GOES = 3


def check_ways(suite: Suite, folder: str, program: str) -> None:
    for way, reports, processes, status in WAYS:
        found = f"{reports} report{'s' if reports != 1 else ''} at " if reports else "no reports; "
        texts = [f"status {status} ", f"asancol: {found}", f"{processes} processes, ", "; all complete"]
        for options in ((), ["--full"]):
            said = ""
            for _ in range(GOES):
                if all(text in said for text in texts):
                    break
                expect(said == "" or " INCOMPLETE: " in said, True, f"{way} {options}: {said}")
                said = run_way(suite, folder, program, [way], *options)
            expect([text for text in texts if text not in said], [], f"{way} {options}: {said}")
            expect("asancol: recording ends" in said or "is lost" in said, False, said)
    expect(os.path.getsize(f"{folder}/taken"), 0, "what the process had in the place of the recorder's")


def check_missing(suite: Suite, folder: str, program: str) -> None:
    """Unsent events are reported; but good ones may be missing. On a busy machine the process may end before it
    has noted that it has closed them."""
    said = run_way(suite, folder, program, ["burst"])
    why = r"INCOMPLETE: (it has closed all its descriptors|it ended): its last events were not seen, at least \d+"
    expect(re.search(why, said) is not None or "3000 reports" in said, True, said)
    said = run_way(suite, folder, program, ["none"])
    why = "INCOMPLETE: it has closed all its descriptors, and did not connect again"
    expect("status 98 " in said and why in said, True, said)


def check_one_segment(suite: Suite, folder: str, program: str) -> None:
    said = run_way(suite, folder, program, ["after"], ASANCOL_SEGMENTS="0")
    expect("INCOMPLETE: it has closed all its descriptors" in said, True, said)
    expect_ran(suite.run("--leaks=no", "--", program, "nothing", ASANCOL_SEGMENTS="0"), 0, "all complete")


def tests(suite: Suite) -> None:
    for compiler in compilers_there():
        program = Later(f"{suite.folder}/{compiler}-closes/closes", build, compiler,
                        f"{suite.folder}/{compiler}-closes/closes")
        suite.test(f"{compiler} closed: ways", check_ways, program)
        suite.test(f"{compiler} closed: missing", check_missing, program)
        suite.test(f"{compiler} closed: one segment", check_one_segment, program)
