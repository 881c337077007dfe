"""What checks cost: processor seconds by crate and kind, read from /proc while they run.

The toolchain starts a process for each check, and its words name the crate. Below a command that
tries mutants each counts as that; else the word `--test` says that it proves the tests. A
`Meter` looks at these processes twice a second and keeps the last reading of each. So it misses what
each does after that, a quarter of a second in the middle. The total of a part and all that it
started is exact: the system counts it. What no reading has is the row `the rest`: that last part,
and short steps, such as linking and running the tests.

A meter only reads. Where /proc cannot be read it has no rows, and nothing else changes.
"""

import os
import resource
import threading
import time
from typing import Dict, List, Optional, Set, Tuple

# A crate, and what of it is checked.
Key = Tuple[str, str]

MUTANTS = "mutants"
KINDS = ("proof", "tests", MUTANTS)

# What all parts together should take at most: processor seconds, and minutes on four processors.
MOST_SECONDS = 8000
MOST_MINUTES = 40

# How long a meter waits between two looks, in seconds.
PAUSE = 0.5

TICKS = os.sysconf("SC_CLK_TCK")


class Process:
    """One line of /proc: a process, its parent, when it began, and its processor seconds with
    those of the children that it has waited for."""

    def __init__(self, pid: int, stat: str) -> None:
        fields = stat[stat.rindex(")") + 2 :].split()
        self.pid = pid
        self.parent = int(fields[1])
        self.seconds = sum(map(int, fields[11:15])) / TICKS
        self.began = int(fields[19])


def processes() -> Dict[int, Process]:
    """Returns all processes that can be read, by their numbers."""
    found = {}
    for name in os.listdir("/proc"):
        if name.isdigit():
            try:
                with open(f"/proc/{name}/stat", encoding="utf-8", errors="replace") as file:
                    found[int(name)] = Process(int(name), file.read())
            except (OSError, ValueError, IndexError):
                pass
    return found


def with_all_below(pid: int) -> List[int]:
    """Returns a process and all that it started and those started, as far as they still run."""
    found = processes()
    below = [pid]
    for it in sorted(found, key=lambda it: (found[it].began, it)):
        if found[it].parent in below:
            below.append(it)
    return below


def checked_by(pid: int) -> Optional[Key]:
    """Returns what a process checks, if it is a check."""
    try:
        with open(f"/proc/{pid}/cmdline", "rb") as file:
            words = file.read().decode(errors="replace").split("\0")
    except OSError:
        return None
    if "--crate-name" not in words[:-1]:
        return None
    crate = words[words.index("--crate-name") + 1]
    return crate, "tests" if "--test" in words else "proof"


class Meter:
    """Reads what the checks below this process cost, from `with` to the end of its block. The block has parts,
    each with a name, and some run side by side."""

    def __init__(self) -> None:
        self.checks: Dict[Tuple[int, int], Key] = {}
        self.readings: Dict[Tuple[int, int], float] = {}
        self.total = 0.0
        self.wall = 0.0
        # The processor seconds of each part, as its commands have ended, and those that try
        # mutants. Each is set by the thread that runs the command, and read by that which watches.
        self.parts: Dict[str, float] = {}
        self.on_mutants: Set[int] = set()
        self.over = threading.Event()
        self.thread = threading.Thread(target=self.watch, daemon=True)

    def __enter__(self) -> "Meter":
        self.total, self.wall = -seconds_of_children(), -time.monotonic()
        self.thread.start()
        return self

    def __exit__(self, *_: object) -> None:
        self.over.set()
        self.thread.join()
        self.total += seconds_of_children()
        self.wall += time.monotonic()

    def begins(self, part: str, pid: int) -> None:
        """Notes that a process is a command of a part."""
        if part == MUTANTS:
            self.on_mutants.add(pid)

    def ends(self, part: str, seconds: float) -> None:
        """Counts a command that has ended, with all that it started and waited for."""
        self.parts[part] = self.parts.get(part, 0.0) + seconds

    def watch(self) -> None:
        while not self.over.wait(PAUSE):
            try:
                self.look()
            except OSError:
                return

    def look(self) -> None:
        """Reads each check once. What it has forked counts as its own."""
        found = processes()
        below = {os.getpid()}
        sums: Dict[Tuple[int, int], float] = {}
        for pid in sorted(found, key=lambda it: (found[it].began, it)):
            if found[pid].parent not in below:
                continue
            below.add(pid)
            check = self.check_above(found, pid)
            if check:
                sums[check] = sums.get(check, 0.0) + found[pid].seconds
        for check, seconds in sums.items():
            self.readings[check] = max(seconds, self.readings.get(check, 0.0))

    def check_above(self, found: Dict[int, Process], pid: int) -> Optional[Tuple[int, int]]:
        """Returns the highest check among a process and those above it."""
        highest, is_on_mutants = None, False
        while pid in found and pid != os.getpid():
            name = (pid, found[pid].began)
            key = self.checks.get(name) or checked_by(pid)
            if key:
                self.checks[name], highest = key, name
            is_on_mutants = is_on_mutants or pid in self.on_mutants
            pid = found[pid].parent
        if highest and is_on_mutants:
            self.checks[highest] = (self.checks[highest][0], MUTANTS)
        return highest

    def by_crate(self) -> Dict[str, Dict[str, float]]:
        """Returns the seconds of each kind, for each crate."""
        rows: Dict[str, Dict[str, float]] = {}
        for check, seconds in self.readings.items():
            crate, kind = self.checks[check]
            row = rows.setdefault(crate, dict.fromkeys(KINDS, 0.0))
            row[kind] += seconds
        return rows

    def table(self, crates: List[str]) -> List[str]:
        """Returns the lines of a table: a row for each crate that was checked, in this order, the
        rest, and all."""
        rows = self.by_crate()
        order = [it for it in crates if it in rows] + sorted(set(rows) - set(crates))
        sums = {kind: sum(row[kind] for row in rows.values()) for kind in KINDS}
        lines = ["processor seconds     " + "".join(f"{it:>14}" for it in (*KINDS, "all"))]
        lines += [line_of(crate, rows[crate], sum(rows[crate].values())) for crate in order]
        lines.append(line_of("the rest", {}, max(0.0, self.total - sum(sums.values()))))
        minutes, seconds = divmod(round(self.wall), 60)
        return [*lines, f"{line_of('all', sums, self.total)}  in {minutes} min {seconds} s"]

    def parts_line(self) -> str:
        """Returns a line with the processor seconds of each part. Those of `rt ci` are of proofs and
        of tests."""
        sums = {kind: sum(row[kind] for row in self.by_crate().values()) for kind in KINDS}
        parts: Dict[str, float] = {}
        for name, seconds in self.parts.items():
            if name == "rt ci":
                parts.update(proofs=sums["proof"], tests=seconds - sums["proof"])
            else:
                parts[name] = seconds
        return "of it " + ", ".join(f"{name} {seconds:,.0f}" for name, seconds in parts.items())

    def excess(self) -> Optional[str]:
        """Returns a line that says that it took more than it should, if it did."""
        is_long = self.wall > 60 * MOST_MINUTES and len(os.sched_getaffinity(0)) >= 4
        if self.total <= MOST_SECONDS and not is_long:
            return None
        return (
            f"note: this took {self.total:,.0f} processor seconds and {self.wall / 60:.0f} minutes;"
            f" it should take at most {MOST_SECONDS:,}, and {MOST_MINUTES} on four processors"
        )


def line_of(name: str, row: Dict[str, float], whole: float) -> str:
    cells = "".join(f"{row[it]:14,.0f}" if it in row else " " * 14 for it in KINDS)
    return f"{name:<22}{cells}{whole:14,.0f}"


def seconds_of_children() -> float:
    """Returns the processor seconds of all that this process started and waited for."""
    used = resource.getrusage(resource.RUSAGE_CHILDREN)
    return used.ru_utime + used.ru_stime
