"""The report in the form of a compiler's errors, for editors that lead to their places."""

from __future__ import annotations

from typing import Iterable, Iterator, Sequence

from .alerts import level_of, steps_of
from .findings import Finding, Frame, own_frames
from .functions import brief
from .results import Process, Results
from .suppressions import suppression_of
from .text import Text
from .words import plural, printable, shown_path

NOTE = "note"


class GccText(Text):
    """Writes findings as GCC writes errors: each line begins with its place."""

    def finding(self, finding: Finding, times: bool = True, notes: Sequence[str] = ()) -> Iterator[str]:
        top, near = finding.top, f", {finding.where}" if finding.where else ""
        words = finding.title + finding.threads.where(finding.threads.access) + function_of(top) + near
        if times and finding.count > 1:
            words += f" ({finding.count} times, {plural(finding.processes, 'process')})"
        yield self.line(top, level_of(finding), words)
        for title, frames in reversed(steps_of(finding)[:-1]):
            frame = own_frames(frames)[0]
            yield self.line(frame, NOTE, title + function_of(frame))
        for other in finding.also:
            where = f", {other.where_again}" if other.block else ""
            yield self.line(other.top, NOTE, f"also {other.what}{function_of(other.top)}{where}")
        if finding.later and not self.has_all_places:
            later = plural(len(finding.later), "later report")
            yield self.line(top, NOTE, f"{later} of this process may follow from this")
        for note in notes:
            yield self.line(top, NOTE, note)
        if self.has_suppressions:
            yield self.line(top, NOTE, f"suppression: {suppression_of(finding, self.rule_root) or 'none'}")

    def crashes(self, results: Results, processes: Iterable[Process]) -> Iterator[str]:
        crashed = [(it, crash) for it, crash in ((it, results.crash_of(it)) for it in processes) if crash]
        alone = dict.fromkeys(crash for _, crash in crashed if crash.follows is None or self.has_all_places)
        for crash in alone:
            yield from self.finding(crash)
        yield from super().crashes(results, [it for it, crash in crashed if crash not in alone])

    def line(self, frame: Frame, level: str, words: str) -> str:
        place = shown_path(frame.file or frame.module, self.root) or "asancol"
        if frame.file:
            place += f":{frame.line}" * bool(frame.line) + f":{frame.column}" * bool(frame.line and frame.column)
        return printable(f"{place}: {level}: {words}")


def function_of(frame: Frame) -> str:
    """Returns the function of a frame, and where it is in its module if it has no file."""
    function = f" in {brief(frame.function)}" if frame.function else ""
    return function if frame.file or frame.note else f"{function} at 0x{frame.offset:x}"
