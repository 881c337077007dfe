#!/usr/bin/env python3
"""Passes everything, or what a change touches.

usage: tools/gate.py                      the gate
       tools/gate.py --changed [BASE]     minutes after a change of one crate

The gate first runs `lint_tree.py`, in seconds, and ends there if that finds something. Then comes
`rt ci`: it proves each crate from nothing and runs the tests. It builds the program with two
compilers and leaves both. `decisions.py` compares decisions of the C programs with proved ones, over
the libraries that `rt ci` leaves.
`runs.py` runs both programs with words, and `fuzz.py` compares them with an oracle. Beside all of
them `planted.py` and `mutants.py` try the mutants, and what they print comes at the end. A table
shows the processor seconds of each crate (`costs.py` says how they are counted), and lines below it
those of each part, and if all took longer than they should. The last line is 'N passed, M failed',
of all of them together. The status is 0 where nothing failed.

With `--changed` only the crates with a file that differs from BASE are checked, and those that
stand on them, over what earlier checks kept. BASE is the commit where the branch left `main`, if
none is given. The last line lists omitted steps.
"""

import contextlib
import os
import re
import shutil
import signal
import subprocess
import sys
import threading
import time
from typing import Callable, Dict, List, Optional, Set, Tuple

import costs

TOP = os.path.dirname(os.path.dirname(os.path.abspath(__file__)))

# As LLVM builds it, and as the toolchain's own compiler does.
PROGRAMS = ["crates/asancol/out/asancol", "crates/asancol/out/asancol.by-rattle"]

# Some thousand traces, the same each time.
FUZZ = ["tests/fuzz.py", "--draws", "4000", "--seed", "1"]

# What comes after the lint, one after another, each with the part that it counts as.
STEPS = [
    ("rt ci", ["rt", "ci"]),
    ("decisions", [sys.executable, "tests/decisions.py", "--as-proved"]),
    ("runs", [sys.executable, "tests/runs.py", *PROGRAMS]),
    ("fuzz", [sys.executable, *FUZZ, *PROGRAMS]),
]

# What runs beside them. The mutants are tried over the libraries that `rt ci` proves.
BESIDE = [
    (costs.MUTANTS, [sys.executable, "tools/planted.py"]),
    (costs.MUTANTS, [sys.executable, "tools/mutants.py", "--as-proved"]),
]

COUNTS = re.compile(r"(\d+) passed, (\d+) failed")

# What `rt ci` prints once a crate's library is there.
PROVED = re.compile(r"rt: (\w+) (?:proved$|is kept: )")

TEST = re.compile(r"#\s*\[\s*test\b")


def lines_listed() -> Dict[str, str]:
    """Returns each crate's line of crates.txt, in the order of the file."""
    with open(f"{TOP}/crates.txt", encoding="utf-8") as file:
        lines = [line.partition("#")[0].strip() for line in file]
    return {line.partition(":")[0].split()[0]: line for line in lines if ":" in line}


def crates_listed() -> Dict[str, List[str]]:
    """Returns each crate of crates.txt with the names after its colon, in the order of the file."""
    return {name: line.partition(":")[2].split() for name, line in lines_listed().items()}


def lowest_first(listed: Dict[str, List[str]]) -> List[str]:
    """Returns the crates, each after those that it stands on."""
    ordered: List[str] = []

    def add(name: str) -> None:
        if name in listed and name not in ordered:
            for below in listed[name]:
                add(below)
            ordered.append(name)

    for name in listed:
        add(name)
    return ordered


class Steps:
    """Commands, one after another until one fails: how many tests passed and failed so far. Each
    command's lines go to `say`, except the counts in its last one, and to `see` at once. What they
    read is `given`."""

    def __init__(
        self,
        meter: costs.Meter,
        steps: List[Tuple[str, List[str]]],
        say: Callable[[str], None],
        see: Callable[[str], None],
        given: int,
    ) -> None:
        self.meter, self.steps, self.say, self.see, self.given = meter, steps, say, see, given
        self.passed = self.failed = 0
        self.is_over = False
        self.now: "Optional[subprocess.Popen[str]]" = None

    def run(self) -> None:
        """Takes the steps. One that can't be taken, as if a command is not there, counts as failed."""
        try:
            for part, argv in self.steps:
                if self.failed == 0 and not self.is_over:
                    self.step(part, argv)
        except BaseException:
            self.failed += 1
            raise

    def step(self, part: str, argv: List[str]) -> None:
        """Runs a command. One that says nothing passed, or ends with another status than its counts
        say, counts as failed. One that was stopped counts for nothing."""
        last = ""
        pipe = subprocess.PIPE
        self.now = subprocess.Popen(argv, cwd=TOP, stdin=self.given, stdout=pipe, text=True)
        self.meter.begins(part, self.now.pid)
        for line in self.now.stdout or ():
            self.see(line)
            self.say(last)
            last = line
        _, status, used = os.wait4(self.now.pid, 0)
        self.now.returncode = os.waitstatus_to_exitcode(status)
        self.meter.ends(part, used.ru_utime + used.ru_stime)
        counts = COUNTS.fullmatch(last.strip())
        if not counts:
            self.say(last)
        passed, failed = map(int, counts.groups()) if counts else (0, 0)
        if failed == 0 and (passed == 0 or self.now.returncode != 0):
            failed = 1
        if not self.is_over:
            self.passed, self.failed = self.passed + passed, self.failed + failed

    def stop(self) -> None:
        """Ends the command that runs, with all that it started, and begins no other."""
        self.is_over = True
        if self.now and self.now.returncode is None:
            for pid in costs.with_all_below(self.now.pid):
                with contextlib.suppress(ProcessLookupError):
                    os.kill(pid, signal.SIGTERM)


def show(text: str) -> None:
    print(text, end="", flush=True)


def is_clean() -> bool:
    """Returns whether lint_tree.py finds nothing. It prints what it finds."""
    return subprocess.run([sys.executable, f"{TOP}/tools/lint_tree.py"], cwd=TOP).returncode == 0


def run_all(meter: costs.Meter) -> Tuple[int, int]:
    """Takes the steps, and those beside them, and returns how many tests passed and failed. If a
    step fails, what runs beside it is ended."""
    said: List[str] = []
    reads, writes = os.pipe()

    def pass_on(line: str) -> None:
        proved = PROVED.match(line)
        if proved:
            os.write(writes, f"{proved[1]}\n".encode())

    steps = Steps(meter, STEPS, show, pass_on, subprocess.DEVNULL)
    beside = Steps(meter, BESIDE, said.append, lambda _: None, reads)
    thread = threading.Thread(target=beside.run)
    thread.start()
    try:
        steps.run()
        if steps.failed:
            beside.stop()
    except BaseException:
        steps.stop()
        beside.stop()
        raise
    finally:
        os.close(writes)
        thread.join()
        os.close(reads)
    show("".join(said))
    return steps.passed + beside.passed, steps.failed + beside.failed


def gate() -> int:
    with costs.Meter() as meter:
        is_good = is_clean()
        meter.ends("lint", costs.seconds_of_children())
        passed, failed = run_all(meter) if is_good else (0, 1)
    if is_good:
        print("\n".join(["", *meter.table(lowest_first(crates_listed())), meter.parts_line(), ""]))
    else:
        print("nothing was proved or run: mend these first")
    if meter.excess():
        print(meter.excess())
    print(f"{passed} passed, {failed} failed")
    return 1 if failed else 0


def git(*argv: str) -> str:
    """Returns what a git command prints, and ends this one where git fails."""
    ran = subprocess.run(["git", *argv], cwd=TOP, stdout=subprocess.PIPE, text=True)
    if ran.returncode:
        sys.exit(f"tools/gate.py: git {argv[0]} failed")
    return ran.stdout


def base_of_branch() -> str:
    """Returns the commit where this branch left main, here or as it was cloned. Ends this command
    if there is neither: then it is to be said."""
    for main_branch in ("main", "origin/main"):
        argv = ["git", "merge-base", main_branch, "HEAD"]
        ran = subprocess.run(
            argv, cwd=TOP, stdout=subprocess.PIPE, stderr=subprocess.DEVNULL, text=True
        )
        if ran.returncode == 0:
            return ran.stdout.strip()
    print("there is no branch main here to compare with: name a commit", file=sys.stderr)
    sys.exit(2)


def commit_of(name: str) -> str:
    """Returns the commit of this name, and ends this command if there is none."""
    argv = ["git", "rev-parse", "--verify", "--quiet", f"{name}^{{commit}}"]
    ran = subprocess.run(argv, cwd=TOP, stdout=subprocess.PIPE, text=True)
    if ran.returncode:
        print(f"there is no commit {name}", file=sys.stderr)
        sys.exit(2)
    return ran.stdout.strip()


def stop_without_rt() -> None:
    """Ends this command if the toolchain is not there, with why."""
    if not shutil.which("rt"):
        print("this needs the command rt of the toolchain that README.md names", file=sys.stderr)
        sys.exit(2)


def changed_crates(base: str) -> Set[str]:
    """Returns the crates with a file that differs from BASE, committed or not, or that git does not
    know yet. Where crates.txt or HANDLES differs, it is all of them."""
    if git("diff", "--name-only", base, "--", "crates.txt", "HANDLES"):
        return set(crates_listed())
    files = git("diff", "--name-only", base, "--", "crates").splitlines()
    files += git("ls-files", "--others", "--exclude-standard", "--", "crates").splitlines()
    return {it.split("/")[1] for it in files if it.count("/") >= 2}


def those_above(names: Set[str], listed: Dict[str, List[str]]) -> List[str]:
    """Returns these crates and all that stand on them, lowest first."""
    found: List[str] = []
    for name in lowest_first(listed):
        if name in names or set(listed[name]) & set(found):
            found.append(name)
    return found


def has_tests(crate: str) -> bool:
    for at, _, files in os.walk(f"{TOP}/crates/{crate}/src"):
        for name in files:
            with open(f"{at}/{name}", encoding="utf-8", errors="replace") as file:
                if TEST.search(file.read()):
                    return True
    return False


def steps_for(changed: Set[str], listed: Dict[str, List[str]]) -> List[Tuple[str, List[str]]]:
    """Returns the commands for a change of these crates, each with its folder."""
    above = those_above(changed, listed)
    steps = [(f"crates/{it}", ["rt", "check"]) for it in above]
    edited = [it for it in above if it in changed and os.path.isdir(f"{TOP}/crates/{it}/mutants")]
    if edited:
        steps.append((".", [sys.executable, "tools/mutants.py", *edited]))
    steps += [(f"crates/{it}", ["rt", "test"]) for it in above if has_tests(it)]
    if any(" staticlib:" in lines_listed()[it] for it in above):
        steps.append((".", [sys.executable, "tests/decisions.py"]))
    if "asancol" in above:
        steps.append(("crates/asancol", ["rt", "run", "--", "--version"]))
        steps.append((".", [sys.executable, "tests/runs.py", PROGRAMS[0]]))
        steps.append((".", [sys.executable, *FUZZ, PROGRAMS[0]]))
    return steps


def check_changed(base: str) -> int:
    """Checks what a change since BASE touches, and stops at the first step that fails."""
    listed = crates_listed()
    changed = changed_crates(base)
    above = those_above(changed, listed)
    print(f"changed since {base[:12]}: {' '.join(sorted(changed)) or 'no crate'}")
    print(f"checked: {' '.join(above) or 'no crate'}", flush=True)
    failed = not is_clean()
    for folder, argv in steps_for(changed, listed):
        began = time.monotonic()
        print(f"== {folder}: {' '.join(argv)}", flush=True)
        if subprocess.run(argv, cwd=f"{TOP}/{folder}").returncode:
            failed = True
            print(f"FAILED: {' '.join(argv)} in {folder}; nothing after it was tried")
            break
        print(f"   {time.monotonic() - began:.0f} s", flush=True)
    others = [it for it in above if it not in changed]
    left = ["every proof from nothing"]
    left += [f"{len(listed) - len(above)} crates"] if len(above) < len(listed) else []
    left += ["tests/runs.py", "tests/fuzz.py"] if "asancol" not in above else []
    left += [f"the mutants of {' '.join(others)}"] if others else []
    left += ["the program by the toolchain's own compiler"]
    came = "something failed" if failed else "nothing failed"
    print(f"not the gate: {came}; left out: {', '.join(left)}")
    return 1 if failed else 0


def main(argv: List[str]) -> int:
    if not argv:
        return gate()
    if argv[0] == "--changed" and len(argv) <= 2:
        stop_without_rt()
        return check_changed(commit_of(argv[1]) if len(argv) == 2 else base_of_branch())
    print(__doc__.split("\n\n")[1], file=sys.stderr)
    return 2


if __name__ == "__main__":
    sys.exit(main(sys.argv[1:]))
