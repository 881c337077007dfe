"""The report as Markdown, for the page of a job, such as that of `$GITHUB_STEP_SUMMARY`."""

from __future__ import annotations

import io
import re
from typing import Iterator, List, TextIO

from .alerts import level_of, root_of, words_of
from .crashes import Crash
from .findings import Finding, place_text
from .functions import brief
from .options import Options
from .results import Process, Results
from .source_url import SourceUrl
from .sources import Sources
from .text import abrupt_lines, Colors, incomplete_lines, MAX_PLACES, notes_on, seen_text, Text, totals_line
from .words import plural, printable, shown_path, whole_characters

# GitHub shows no more than 1 MiB.
MAX_CHARACTERS = 900_000


def plain(text: str) -> str:
    """Returns a text that no reader of Markdown takes for more."""
    return re.sub(r"[^\w ./=+,;():-]|_|:(?=/)", lambda found: f"&#{ord(found[0])};", whole_characters(printable(text)))


def block(lines: List[str]) -> str:
    """Returns lines as they are. Their fence is longer than any that they have."""
    text = whole_characters("\n".join(lines))
    fence = "`" * max([3, *(len(it) + 1 for it in re.findall("`+", text))])
    return f"{fence}text\n{text}\n{fence}\n"


class Markdown:
    """Makes the parts of the summary."""

    def __init__(self, results: Results, root: str, source_url: SourceUrl) -> None:
        self.results = results
        self.root = root
        self.source_url = source_url
        self.text = Text(io.StringIO(), Colors(False), root, has_suppressions=False)

    def parts(self) -> Iterator[str]:
        results = self.results
        yield f"### {plain(totals_line(results))}\n"
        lines = [*abrupt_lines(results.abrupt()), *incomplete_lines(it for _, it in results.incomplete())]
        lines += [f"asancol: {trouble}" for run in results.runs for trouble in run.troubles]
        yield from (f"\n{plain(line.partition(': ')[2])}\n" for line in lines)
        places = [it for it in (*results.counted(), *results.counted_crashes()) if it.follows is None]
        if places:
            yield "\n| level | report | place |\n|---|---|---|\n"
            yield from map(self.row, places[:MAX_PLACES])
        if len(places) > MAX_PLACES:
            yield f"\n{plural(len(places) - MAX_PLACES, 'more place')}\n"
        yield from map(self.details, places[:MAX_PLACES])

    def row(self, finding: Finding) -> str:
        seen = seen_text(self.results, finding)
        times = f" ({finding.count} times)" if finding.count > 1 else ""
        words = plain(words_of(finding) + times + (f"; {seen}" if seen else ""))
        return f"| {level_of(finding)} | {words} | {self.place(finding)} |\n"

    def place(self, finding: Finding) -> str:
        place = plain(shown_path(place_text(finding.top), self.root))
        address = self.source_url.of(finding.top)
        function = f" in {plain(brief(finding.top.function))}" if finding.top.function else ""
        return (f"[{place}](<{address}>)" if address else place) + function

    def details(self, finding: Finding) -> str:
        """Returns the text of a place, which is folded away."""
        title = plain(f"{finding.class_name} {self.text.place_of(finding.top)}")
        lines = self.lines(finding)
        return f"\n<details><summary>{title}</summary>\n\n{block(lines)}\n</details>\n"

    def lines(self, finding: Finding) -> List[str]:
        if isinstance(finding, Crash):
            return list(self.text.crashes(self.results, self.crashed_at(finding)))
        return list(self.text.finding(finding, notes=notes_on(self.results, finding)))[:-1]

    def crashed_at(self, crash: Crash) -> List[Process]:
        return [it for it in self.results.crashes() if self.results.crash_of(it) is crash]


def write(results: Results, out: TextIO, options: Options, sources: Sources) -> None:
    root = root_of(options)
    length = 0
    for part in Markdown(results, root, SourceUrl(options.value("--source-url"), root)).parts():
        length += len(part)
        if length <= MAX_CHARACTERS:
            out.write(part)
