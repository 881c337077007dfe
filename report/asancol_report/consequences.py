"""Which reports may follow from an earlier one of their process: docs/REPORTS.md has the rule."""

from __future__ import annotations

import functools
from typing import Dict, Hashable, Iterable, List, Optional, Tuple

from .findings import Finding, Frame, REDZONE, Stack
from .stacks import owner_of

# A run, and a process of it by its number.
ProcessKey = Tuple[int, int]
# Calls of the program's own code, the outermost first: the function, and the line, or the offset where none is known.
Calls = Tuple[Tuple[str, int], ...]

# What comes too late by its class; so does all else that is about a freed block.
LATE_CLASSES = {"heap-use-after-free", "double-free", "stack-use-after-scope", "stack-use-after-return"}


@functools.lru_cache(maxsize=1 << 14)
def is_own(module: str, file: str, function: str) -> bool:
    return not owner_of(Frame(module=module, file=file, function=function))


def calls_of(stack: Stack) -> Calls:
    return tuple((it.function, it.line or it.offset) for it in reversed(stack)
                 if not it.note and is_own(it.module, it.file, it.function))


def freeing_call(freed: Calls, access: Calls) -> Calls:
    """Returns the calls that led to a free, down to the first that did not lead to the access, too: all that it has
    freed was freed by one call, as seen from the function that made the access."""
    same = 0
    while same < min(len(freed), len(access)) and freed[same] == access[same]:
        same += 1
    return freed[:same + 1]


def is_late(finding: Finding) -> bool:
    return bool(finding.freed) or finding.class_name in LATE_CLASSES


def is_wild(finding: Finding) -> bool:
    """Whether nothing is near that could have been meant."""
    block = finding.block
    if block is None:
        return True
    return not -REDZONE <= finding.bad_byte - block.address < block.size + REDZONE


class Earlier:
    """The reports of a process so far, by what later ones may have in common with them. Each stands for its entry."""

    def __init__(self) -> None:
        self.of_block: Dict[Hashable, Finding] = {}
        self.late_of_block: Dict[Hashable, Finding] = {}
        self.of_calls: Dict[Hashable, Finding] = {}
        self.of_load: Dict[Hashable, Finding] = {}  # the same, of loads
        self.of_free: Dict[Hashable, Finding] = {}
        self.of_bad_free: Dict[Hashable, Finding] = {}  # by the calls that allocated the block
        self.last: Optional[Finding] = None
        self.last_load: Optional[Finding] = None

    def take(self, finding: Finding, is_new: bool) -> None:
        """Takes in the next report, and says what it follows if it is new."""
        access, freed = calls_of(finding.stack), calls_of(finding.freed)
        if is_new:
            entry = None if finding.is_leak else self.on_block(finding)
            finding.shares_block = entry is not None
            finding.follows = entry or (self.of_leak(access) if finding.is_leak
                                        else self.elsewhere(finding, access, freed))
            if finding.follows is not None:
                (finding.follows.also if entry else finding.follows.later).append(finding)
        if not finding.is_leak:
            self.note(finding, access, freed)

    def on_block(self, finding: Finding) -> Optional[Finding]:
        """Returns the entry of the same block or variable. The first report that comes too late has another cause than
        those before the block was freed."""
        return (self.late_of_block if is_late(finding) else self.of_block).get(block_of(finding))

    def elsewhere(self, finding: Finding, access: Calls, freed: Calls) -> Optional[Finding]:
        """Returns the entry of another block that a report may follow from."""
        found = self.of_calls.get(access) or self.of_load.get(freed) or self.of_free.get(freeing_call(freed, access))
        return found or (self.last_load if is_wild(finding) else None)

    def of_leak(self, allocated: Calls) -> Optional[Finding]:
        """Returns the entry that a leak may follow from: the same calls had a report, or the block's free was bad."""
        return self.of_calls.get(allocated) or self.of_bad_free.get(allocated)

    def note(self, finding: Finding, access: Calls, freed: Calls) -> None:
        entry = finding.follows or finding
        put(self.of_block, block_of(finding), entry)
        put(self.late_of_block, block_of(finding) if is_late(finding) else None, entry)
        put(self.of_calls, access, entry)
        put(self.of_free, freeing_call(freed, access), entry)
        put(self.of_bad_free, calls_of(finding.allocated) if finding.class_name == "bad-free" else None, entry)
        self.last = entry
        if finding.access == "load":
            put(self.of_load, access, entry)
            self.last_load = entry


def put(entries: Dict[Hashable, Finding], key: Hashable, entry: Finding) -> None:
    """Keeps the first entry of a key that is known."""
    if key:
        entries.setdefault(key, entry)


def block_of(finding: Finding) -> Hashable:
    return None if finding.block is None else (finding.block, finding.allocated)


def by_process(findings: Iterable[Finding]) -> Dict[ProcessKey, List[Finding]]:
    """Returns the findings of each process in which one of them came up first, in the order of time."""
    firsts = {finding.first_process for finding in findings}
    mine: Dict[ProcessKey, List[Finding]] = {key: [] for key in sorted(firsts)}
    for finding in findings:
        for run, tally in finding.runs.items():
            if (run, tally.process) in firsts:
                mine[run, tally.process].append(finding)
    return {key: sorted(those, key=lambda it: it.runs[key[0]].moment) for key, those in mine.items()}


def fold(findings: Iterable[Finding]) -> Dict[ProcessKey, Finding]:
    """Says of each finding what it follows. Returns the last entry of each process. What the recorder found by itself
    stands alone, except leaks, which come last."""
    last: Dict[ProcessKey, Finding] = {}
    for key, mine in by_process([it for it in findings if not it.by_recorder or it.is_leak]).items():
        earlier = Earlier()
        for finding in mine if len(mine) > 1 else ():
            earlier.take(finding, is_new=finding.first_process == key and earlier.last is not None)
        entry = earlier.last if len(mine) > 1 else mine[0]
        if entry is not None and not entry.is_leak:
            last[key] = entry
    return last
