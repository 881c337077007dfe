"""The report as annotations of GitHub Actions, which a runner reads in a job's output."""

from __future__ import annotations

from typing import Dict, Iterable, Iterator, List, Sequence

from .alerts import ERROR, level_of, place_below
from .crashes import Crash
from .findings import Finding
from .functions import brief
from .results import Process, Results
from .text import incomplete_lines, Text
from .words import printable, shown_path


def escaped(text: str) -> str:
    """Returns the message of a workflow command."""
    return text.replace("%", "%25").replace("\r", "%0D").replace("\n", "%0A")


def escaped_value(text: str) -> str:
    """Returns the value of a property of a workflow command."""
    return escaped(printable(text)).replace(":", "%3A").replace(",", "%2C")


def annotation(level: str, message: str, **properties: object) -> str:
    """Returns a workflow command. Properties that are empty or 0 are left out."""
    words = ",".join(f"{name}={escaped_value(str(value))}" for name, value in properties.items() if value)
    return f"::{level} {words}::{escaped(message)}"


class GithubText(Text):
    """Writes each finding as one annotation: the text is its message, which stands in the log, too."""

    def finding(self, finding: Finding, times: bool = True, notes: Sequence[str] = ()) -> Iterator[str]:
        yield self.annotation(finding, [*super().finding(finding, times, notes)][:-1])

    def annotation(self, finding: Finding, lines: List[str]) -> str:
        frame = place_below(self.root, finding)
        file = shown_path(frame.file, self.root) if frame.line else ""
        is_below = bool(file) and not file.startswith("/")
        function = f" in {brief(finding.top.function)}" if finding.top.function else ""
        return annotation(level_of(finding), "\n".join(lines), file=file.removeprefix("./") if is_below else "",
                          line=frame.line if is_below else 0, col=frame.column if is_below else 0,
                          title=finding.class_name + function)

    def crashes(self, results: Results, processes: Iterable[Process]) -> Iterator[str]:
        crashed: Dict[Crash, List[Process]] = {}
        for process in processes:
            crash = results.crash_of(process)
            if crash is not None:
                crashed.setdefault(crash, []).append(process)
        for crash, those in crashed.items():
            lines = [*super().crashes(results, those)]
            is_alone = crash.follows is None or self.has_all_places
            yield from [self.annotation(crash, lines)] if is_alone else lines

    def summary(self, results: Results, has_places: bool = True) -> Iterator[str]:
        unseen = set(incomplete_lines(process for _, process in results.incomplete()))
        unseen.update(f"asancol: {self.run_name(run, results)}{printable(trouble)}"
                      for run in results.runs for trouble in run.troubles)
        for line in super().summary(results, has_places):
            yield annotation(ERROR, line, title="incomplete") if line in unseen else line
