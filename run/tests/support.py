"""What the tests of asancol-run share: builds, runs, and the suite."""

import glob
import json
import os
import shutil
import subprocess
import tempfile
from typing import Any, Dict, List, Optional, Sequence

import testing
from testing import (  # noqa: F401
    TOP, Failure, Later, LeftOut, Ran, compilers_there, environment, expect, expect_in, expect_not_in, leave_out,
    wait_until, write_text,
)
from testing.programs import CC, REPORT, Started, call, finish, ran_of  # noqa: F401
from testing.suite import Result

TESTS = os.path.dirname(os.path.abspath(__file__))
# If SANITIZE is set, the one that is built with the compiler's sanitizers.
SANITIZE = os.environ.get("SANITIZE", "")
RUN = f"{TOP}/run/asancol-run-sanitized" if SANITIZE else f"{TOP}/run/asancol-run"
FAKE_REPORT = f"{TESTS}/fake_report.py"
SEGMENTED = f"{TESTS}/segmented.py"

# No run may take longer, in seconds. Nothing is measured by it.
PATIENCE = 120


def expect_ran(ran: Ran, status: int, *texts: str, absent: Sequence[str] = ()) -> None:
    """Expects this status, all of these texts on standard error, and none of the others."""
    missing = [it for it in texts if it not in ran.err]
    unwanted = [it for it in absent if it in ran.err]
    if ran.status != status or missing or unwanted:
        raise Failure(f"status {ran.status}, wanted {status}; missing {missing}; unwanted {unwanted}; {ran.err[:2000]}")


class Suite(testing.Suite):
    """The tests of asancol-run, and what they run."""

    def __init__(self, asancol: str, words: Sequence[str]) -> None:
        super().__init__(words)
        self.asancol = asancol
        self.folder = tempfile.mkdtemp(prefix="asancol-tests-")
        self.program = f"{self.folder}/programs"
        self.unchecked = f"{self.folder}/unchecked"
        self.findings = f"{self.folder}/findings"  # of the sanitizers, one file a process

    def prepare(self) -> None:
        """Builds the programs, recorded; and once more so that no code of them is checked."""
        source = f"{TESTS}/programs.c"
        plain = f"{self.folder}/plain.o"
        compiler = os.environ.get("ASANCOL_CC", "cc")
        call([CC, "-g", "-O1", source, "-o", self.program], check=True)
        call([*compiler.split(), "-c", source, "-o", plain], check=True)
        made = [CC, plain, "-o", self.unchecked]
        call(made, stderr=subprocess.DEVNULL, check=True)

    def environment(self, **settings: str) -> Dict[str, str]:
        """The environment without what speaks to asancol, and with these settings. The report is the fake one."""
        ours = {"ASANCOL": self.asancol, "ASANCOL_REPORT": FAKE_REPORT}
        if SANITIZE:
            # It keeps its memory until it ends.
            sanitizers = f"detect_leaks=0:log_path={self.findings}:exitcode=111"
            ours.update(ASAN_OPTIONS=sanitizers, UBSAN_OPTIONS=f"{sanitizers}:print_stacktrace=1")
        return environment(**{**ours, **settings})

    def run(self, *argv: str, cwd: Optional[str] = None, **settings: str) -> Ran:
        """Runs asancol-run."""
        return self.run_argv([RUN, *argv], cwd, **settings)

    def run_argv(self, argv: Sequence[str], cwd: Optional[str] = None, **settings: str) -> Ran:
        """Runs any command."""
        ran = call(argv, env=self.environment(**settings), cwd=cwd, stdin=subprocess.DEVNULL,
                   capture_output=True, timeout=PATIENCE, check=False)
        return ran_of(ran)

    def start(self, *argv: str, user: Optional[int] = None, **settings: str) -> Started:
        """Starts asancol-run, as another user if one is named."""
        environment = self.environment(**settings)
        return Started([RUN, *argv], env=environment, stdin=subprocess.DEVNULL, text=True, user=user,
                       stdout=subprocess.PIPE, stderr=subprocess.PIPE)

    def packets(self, folder: str, *argv: str, **settings: str) -> List[Any]:
        """Runs asancol-run, and returns what the report was sent; first its words."""
        path = f"{folder}/packets"
        self.run(*argv, FAKE_PACKETS=path, **settings)
        return read_packets(path)

    def show_findings(self) -> None:
        """Counts what sanitizers have found as failures."""
        for path in sorted(glob.glob(f"{self.findings}.*")):
            with open(path, encoding="utf-8", errors="replace") as file:
                self.take(Result("sanitizers", __name__, 0, f"\n{file.read()}"))
            os.remove(path)

    def clean_up(self) -> None:
        self.show_findings()
        shutil.rmtree(self.folder, ignore_errors=True)


def hash_of(text: str, before: int = 2166136261) -> int:
    """Returns the hash of a text (common/hash.h), or of one that stands before it with it."""
    for byte in text.encode():
        before = (before ^ byte) * 16777619 % (1 << 32)
    return before


def mark_of(number: int) -> int:
    """Returns the mark of a hub whose name has this hash (common/inherited.h)."""
    return 4095 - (number >> 8) % 2048


def marked_slack(hub: str, slack: int = 50000) -> int:
    """Returns the timer slack that has the mark of a hub."""
    marked = slack // 4096 * 4096 + mark_of(hash_of(hub))
    return marked + 4096 if marked < slack else marked


def read_packets(path: str) -> List[Any]:
    with open(path, encoding="utf-8") as lines:
        return [json.loads(line) for line in lines]
