"""A baseline: an earlier result, whose findings do not count again."""

from __future__ import annotations

from typing import Iterable, Set

from .findings import Finding
from .json_lines import read
from .results import Results


class Baseline:
    """The fingerprints of an earlier result."""

    def __init__(self, path: str) -> None:
        """Reads a file of JSON lines. Broken, if that fails."""
        earlier = Results()
        read(path, earlier)
        self.known: Set[str] = {finding.fingerprint for finding in earlier.places.values()}
        # An earlier release has none for a crash, which then counts.
        self.known |= {process.fingerprint for run in earlier.runs for process in run.processes.values()
                       if process.is_crash and process.fingerprint}
        self.seen: Set[str] = set()

    def apply(self, findings: Iterable[Finding]) -> None:
        for finding in findings:
            finding.is_known = finding.fingerprint in self.known
            self.seen.add(finding.fingerprint)

    def gone(self) -> int:
        """Returns how many of its places did not come up."""
        return len(self.known - self.seen)
