"""The report as one page that needs no other file and no network.

All entries are in the page as text, so that it can be read without scripts, as some servers show it. The script of the
page filters, sorts, opens and copies the entries. A page may have a million frames: each has few elements.
"""

from __future__ import annotations

import base64
import hashlib
import os
import re
import time
from html import escape as html_escape
from typing import Dict, Iterable, Iterator, List, Optional, TextIO, Tuple

from . import shadow_rows
from .classes import advice_for, shadow_text, what_is
from .crashes import AWAITED, Crash
from .findings import Finding, FORGOTTEN, Frame, own_frames, place_text, Stack
from .functions import brief
from .options import Options
from .results import Process, Results, Run
from .side import GRANULE
from .source_url import SourceUrl
from .sources import Sources
from .suppressions import suppression_of
from .text import Colors, notes_on, seen_text, Text, totals_line, unchecked_text, variables_text
from .words import command_line, plural, printable, shown_path

PAGE = os.path.join(os.path.dirname(os.path.abspath(__file__)), "page.html")
# Lines of source before and after the one that a frame names.
AROUND = 3
# The most places and processes that are shown. All of them are in the JSON lines.
MAX_FINDINGS = 5000
MAX_PROCESSES = 5000


def escape(text: object) -> str:
    return html_escape(printable(str(text)), quote=True)


def tag(name: str, inner: str, **attributes: object) -> str:
    words = "".join(f' {key.rstrip("_").replace("_", "-")}="{escape(value)}"' for key, value in attributes.items())
    return f"<{name}{words}>{inner}</{name}>"


def number(count: int) -> str:
    return f"{count:,}"


class Page:
    """Makes the parts of a page."""

    def __init__(self, results: Results, sources: Sources, root: str, text: Text, source_url: SourceUrl) -> None:
        self.results = results
        self.sources = sources
        self.root = root  # paths are seen from here
        self.text = text
        self.source_url = source_url
        self.names: Dict[Finding, str] = {}  # what the address of the page names each place by
        self.crashed: Dict[Finding, List[Process]] = {}  # the processes that crashed at each place

    def parts(self) -> Dict[str, Iterable[str]]:
        findings = self.in_order()
        self.names = names_of(findings)
        for run in self.results.runs:
            for process in run.processes.values():
                crash = self.results.crash_of(process)
                if crash is not None:
                    self.crashed.setdefault(crash, []).append(process)
        return {
            "TITLE": [escape(totals_line(self.results))],
            "WHAT": [escape(self.what())],
            "WHEN": [escape(self.when())],
            "TILES": self.tiles(),
            "BANNER": self.banner(),
            "CLASSES": [tag("option", escape(name), value=name) for name in sorted({it.class_name for it in findings})],
            "FINDINGS": self.findings(findings),
            "COUNT": [escape(self.processes_text())],
            "OPEN": ["open"] if self.results.totals().incomplete else [],
            "PROCESSES": self.processes(),
            "NOTES": [tag("li", escape(note)) for note in self.notes()],
        }

    def in_order(self) -> List[Finding]:
        """Returns all places: what counts, in the order of time, each with what may have come of it; then the rest."""
        firsts = [finding for finding in self.results.findings() if finding.follows is None]
        last = {finding.first_process: finding for finding in firsts}  # of each process
        crashes = self.results.placed_crashes()
        places: List[Finding] = []
        for finding in firsts:
            process = finding.first_process
            places += [finding, *sorted((*finding.also, *finding.later), key=lambda it: it.order)]
            if last[process] is finding:
                places += [crash for crash in crashes if crash.is_consequence and crash.first_process == process]
        placed = set(places)
        places += [crash for crash in crashes if crash not in placed]
        return sorted(places, key=lambda finding: not finding.counts)

    def what(self) -> str:
        runs = self.results.runs
        return command_line(runs[0].command) if len(runs) == 1 else plural(len(runs), "run")

    def when(self) -> str:
        """Returns when the first run began, and what the summary has besides the counts of reports."""
        begun = [run.time for run in self.results.runs if run.time]
        date = time.strftime("%Y-%m-%d %H:%M UTC · ", time.gmtime(min(begun))) if begun else ""
        return date + totals_line(self.results).partition("; ")[2]

    def tiles(self) -> Iterator[str]:
        totals = self.results.totals()
        unseen = totals.incomplete + totals.troubles

        def tile(count: int, text: str, kind: str) -> str:
            return tag("div", tag("b", number(count)) + " " + tag("span", text), class_="tile " + kind)

        is_good = not (totals.places or totals.crashed or unseen)
        yield tile(totals.places, "place with a report" if totals.places == 1 else "places with reports",
                   "bad" if totals.places else "good" if is_good else "")
        if totals.reports:
            yield tile(totals.reports, "report in all" if totals.reports == 1 else "reports in all", "")
        yield tile(totals.processes, ("process in " if totals.processes == 1 else "processes in ")
                   + plural(self.results.run_count, "run"), "")
        if totals.crashed:
            yield tile(totals.crashed, "crashed", "bad")
        yield tile(unseen, "incomplete", "warn" if unseen else "good" if self.results.runs else "")
        hidden = sum(not finding.counts for finding in self.results.all_places())
        if hidden:
            yield tile(hidden, "suppressed, known or waited for", "")

    def banner(self) -> Iterator[str]:
        are_several = len(self.results.runs) > 1  # one alone is in the heading
        lines = [f"{command_line(run.command)}: {trouble}" if are_several else trouble for run in self.results.runs
                 for trouble in (*run.troubles, run.failure) if trouble]
        if self.results.unchecked_count() and self.results.lists_unchecked:
            lines.append(f"not checked: {unchecked_text(self.results, 1000)}")
        count = self.results.totals().incomplete
        if count:
            lines.append(f"{plural(count, 'process')} {'was' if count == 1 else 'were'} incomplete: the list of "
                         "processes says why.")
        if lines:
            yield tag("div", "".join(tag("p", escape(line)) for line in lines), class_="banner", role="status")

    def notes(self) -> List[str]:
        notes = list(self.results.notes)
        notes += [f"A suppression matched nothing: {rule}" for rule in self.results.unused]
        if self.results.gone:
            notes.append(f"{plural(self.results.gone, 'place')} of the baseline not seen in this run.")
        return notes

    def findings(self, findings: List[Finding]) -> Iterator[str]:
        for position, finding in enumerate(findings[:MAX_FINDINGS]):
            yield self.card(finding, position)
        if not findings:
            text = "No reports." if self.results.is_complete() else "No reports, but the run was incomplete."
            yield tag("p", text, class_="empty")
        if len(findings) > MAX_FINDINGS:
            yield tag("p", f"The first {number(MAX_FINDINGS)} of {number(len(findings))} places.", class_="dim")

    @staticmethod
    def title(finding: Finding) -> str:
        """Returns the title as in the text, with the class made to stand out."""
        start, colon, rest = finding.title.partition(": ")
        thread = finding.threads.where(finding.threads.access)
        return tag("span", escape(start), class_="kind") + escape(colon + rest + thread)

    def command_of(self, process: Process) -> str:
        return command_line([shown_path(process.command[0], self.root), *process.command[1:]])

    def place(self, finding: Finding) -> str:
        return shown_path(place_text(finding.top), self.root)

    def card(self, finding: Finding, position: int) -> str:
        top, place = finding.top, self.place(finding)
        times = plural(finding.processes, "process")
        function = "in " + tag("b", escape(brief(top.function))) + " " if top.function else ""
        summary = (
            tag("span", self.title(finding), class_="title")
            + tag("span", tag("b", number(finding.count) + "×") + " " + tag("span", times), class_="count")
            + tag("span", function + tag("code", escape(place)), class_="place")
            + "".join(tag("span", escape(it), class_="near") for it in (finding.where, finding.in_tests) if it)
            + self.whose(finding)
        )
        kinds = ["card", *["quiet"] * (not finding.counts), *["small"] * finding.is_consequence]
        body = "".join(self.stacks(finding)) + self.as_text(finding) + self.foot(finding)
        return tag("details", tag("summary", summary) + tag("div", body, class_="body"), class_=" ".join(kinds),
                   id=self.names[finding], data_words=self.words(finding, place), data_class=finding.class_name,
                   data_count=finding.count, data_position=position,
                   data_file=shown_path(top.file or top.module, self.root), data_line=top.line,
                   data_counts=int(finding.counts)) + "\n"

    def whose(self, finding: Finding) -> str:
        """Returns which command line the process has, if there are several."""
        process = self.results.first_process(finding)
        if process is None or not process.command or not self.results.has_several_commands():
            return ""
        return tag("span", "process " + tag("code", escape(self.command_of(process))), class_="near")

    def words(self, finding: Finding, place: str) -> str:
        """Returns where the filter looks for words: each function, file and module of all frames is there once."""
        words = [finding.class_name, finding.title, finding.where, place, *finding.tests,
                 *(it.words for it in finding.threads.all)]
        for _, stack, _ in titled_stacks(finding):
            for frame in stack:
                words += [frame.function, shown_path(frame.file, self.root), shown_path(frame.module, self.root)]
        return " ".join(filter(None, dict.fromkeys(words))).lower()

    def stacks(self, finding: Finding) -> Iterator[str]:
        if finding.follows is not None:
            first = finding.follows
            place = f"{brief(first.top.function)} {self.place(first)}"
            link = tag("a", escape(f"{first.title} in {place}"), href="#" + self.names[first])
            how = "On the same block or variable as" if finding.shares_block else "It may follow from"
            yield tag("p", f"{how} the earlier {link}.")
        yield tag("p", escape(self.what_is(finding)))
        if finding.is_forgotten:
            yield tag("p", escape(f"The block was {FORGOTTEN}."))
        yield tag("p", escape(advice_for(finding.class_name)), class_="dim")
        for title, stack, own in titled_stacks(finding):
            if stack:
                yield tag("h3", escape(title)) + self.stack(stack, own or next(iter(own_frames(stack))))
        yield from self.memory(finding)

    @staticmethod
    def memory(finding: Finding) -> Iterator[str]:
        """Yields what else is in the frame of a variable, and the shadow, which is folded away."""
        lines = list(variables_text(finding.block, finding.bad_byte))
        if lines:
            yield tag("h3", escape(lines[0].strip())) + listing(lines[1:])
        if finding.rows.shadow:
            shadow = list(shadow_rows.lines(finding.rows, finding.bad_byte))
            yield folded(shadow[0].rstrip(":"), shadow[1:])

    def as_text(self, finding: Finding) -> str:
        """Returns a place as the text has it, which is folded away."""
        if isinstance(finding, Crash):
            lines = list(self.text.crashes(self.results, self.crashed.get(finding, [])))
        else:
            lines = list(self.text.finding(finding, notes=notes_on(self.results, finding)))[:-1]
        return folded("As text", lines, "text")

    @staticmethod
    def what_is(finding: Finding) -> str:
        """Returns the mistake, in sentences."""
        text = what_is(finding.class_name) + "."
        if finding.by_recorder:
            return f"{text} The recorder found this by itself; the checker did not judge it."
        if isinstance(finding, Crash):
            return text
        shadow = f": {shadow_text(shadow_of(finding))}" if finding.shadow else ""
        return f"{text} The bad byte is at 0x{finding.bad_byte:x}{shadow}."

    def stack(self, stack: Stack, own: Frame) -> str:
        frames = [tag("li", self.frame(frame, is_open=frame is own)) for frame in stack]
        return tag("ol", "".join(frames), start=0)

    def frame(self, frame: Frame, is_open: bool) -> str:
        place = escape(frame.note or shown_path(place_text(frame), self.root))
        address = self.source_url.of(frame)
        place = tag("a", place, href=address) if address else place
        inlined = " (inlined)" if frame.is_inlined and not frame.note else ""
        line = tag("b", escape(brief(frame.function) or "?")) + " " + tag("span", place + inlined, class_="dim")
        excerpt = self.excerpt(frame)
        if not excerpt:
            return tag("div", line, class_="frame mono")
        summary = tag("summary", line, class_="mono")
        return f'<details class="frame"{" open" if is_open else ""}>{summary}{excerpt}</details>'

    def excerpt(self, frame: Frame) -> str:
        """Returns some lines of source. If the file has changed since, only the line that was there is known."""
        lines = self.sources.around(frame.file, frame.line, AROUND)
        if frame.text and self.sources.line(frame.file, frame.line) != frame.text:
            lines = [(frame.line, frame.text)]
        rows = [f"{at:5}  {escape(text)}" for at, text in lines]
        rows = [tag("b", row) if at == frame.line else row + "\n" for row, (at, _) in zip(rows, lines)]
        return box("".join(rows), "source") if rows else ""

    def foot(self, finding: Finding) -> str:
        parts = []
        if finding.suppression:
            parts.append(tag("span", escape("suppressed by " + finding.suppression), class_="pill"))
        if finding.is_known:
            parts.append(tag("span", "known from the baseline", class_="pill"))
        if finding.is_awaited:
            parts.append(tag("span", AWAITED, class_="pill"))
        line = suppression_of(finding, self.sources.root)
        if line:
            parts.append("to suppress: " + tag("code", escape(line), class_="pill suppression"))
        process = self.results.first_process(finding)
        if process is not None and process.command:
            parts.append(f"process {process.pid}: " + tag("code", escape(self.command_of(process))))
        name = "#" + self.names[finding]
        parts.append("fingerprint " + tag("a", tag("code", escape(name)), href=name))
        if len(self.results.runs) > 1:
            names = [command_line(self.results.runs[run].command) for run in list(finding.runs)[:5]]
            more = f" and {len(finding.runs) - 5} more" if len(finding.runs) > 5 else ""
            parts.append("in " + escape("; ".join(names) + more))
            parts.append(escape(seen_text(self.results, finding)))
        return tag("p", " ".join(tag("span", part) for part in parts), class_="foot")

    def processes_text(self) -> str:
        """Returns a summary of the processes, for the heading under which they are folded away."""
        totals = self.results.totals()
        crashed = totals.crashed + totals.crashes_suppressed + totals.crashes_known + totals.crashes_awaited
        counts = ((totals.incomplete, "incomplete"), (totals.abrupt, "ended abruptly"), (crashed, "crashed"))
        said = [f"{number(count)} {text}" for count, text in counts if count]
        return f"{number(totals.processes)}: " + (", ".join(said) or "all complete" if totals.processes else "none")

    def processes(self) -> Iterator[str]:
        rows = [(run, process) for run in self.results.runs for process in run.processes.values()]
        rows.sort(key=lambda row: (row[1].is_complete, not row[1].is_crash))
        for run, process in rows[:MAX_PROCESSES]:
            yield self.process(run, process)
        if len(rows) > MAX_PROCESSES:
            text = f"The first {number(MAX_PROCESSES)} of {number(len(rows))} processes."
            yield tag("tr", tag("td", text, colspan=5, class_="dim"))

    @staticmethod
    def process(run: Run, process: Process) -> str:
        complete = "yes" if process.is_complete else "no"
        why = f"{complete}: {process.why}" if process.why else complete
        reports = process.reports + process.findings
        kind = "no" if process.is_crash else "dim" if process.is_abrupt else complete
        return tag("tr", tag("td", str(process.pid), class_="n", data_value=process.pid)
                   + tag("td", escape(command_line(process.command or run.command)), class_="mono")
                   + tag("td", number(process.events), class_="n", data_value=process.events)
                   + tag("td", number(reports), class_="n", data_value=reports)
                   + tag("td", escape(why), class_=kind)) + "\n"


def shadow_of(finding: Finding) -> str:
    """Returns the shadow byte of the bad byte: as the recorder has seen it, or else as the checker has it."""
    at = (finding.bad_byte - finding.rows.start) // GRANULE
    return f"{finding.rows.shadow[at]:02x}" if 0 <= at < len(finding.rows.shadow) else finding.shadow


def box(text: str, name: str) -> str:
    """Returns text in a box that scrolls."""
    return tag("pre", text, class_="source", tabindex=0, role="group", aria_label=name)


def listing(lines: Iterable[str]) -> str:
    """Returns lines that stand as they are."""
    return box("\n".join(map(escape, lines)), "memory")


def folded(title: str, lines: Iterable[str], kind: str = "shadow") -> str:
    """Returns lines that are shown when their title is opened."""
    return tag("details", tag("summary", escape(title)) + listing(lines), class_=f"fold {kind}")


def names_of(findings: Iterable[Finding]) -> Dict[Finding, str]:
    """Returns a name for each place, which is its fingerprint: so the address of a place is the same in the page of a
    later run. Others with this fingerprint have numbers after it."""
    alike: Dict[str, int] = {}
    names: Dict[Finding, str] = {}
    for finding in findings:
        count = alike[finding.fingerprint] = alike.get(finding.fingerprint, 0) + 1
        names[finding] = finding.fingerprint + (f"-{count}" if count > 1 else "")
    return names


def titled_stacks(finding: Finding) -> Iterator[Tuple[str, Stack, Optional[Frame]]]:
    """Yields the stacks of a finding with what stands over each, and which frame stands open, if that is known."""
    threads = finding.threads
    title = "Where it was" if isinstance(finding, Crash) else "Access"
    yield title + threads.where(threads.access), finding.stack, finding.top
    yield f"Block allocated{threads.where(threads.allocated, finding.allocated)} at", finding.allocated, None
    yield f"Block freed{threads.where(threads.freed, finding.freed)} at", finding.freed, None
    for title, stack in threads.titles():
        yield title, stack, None


def allowed(script: str) -> str:
    """Returns how the policy of the page names a script that may run."""
    return f"'sha256-{base64.b64encode(hashlib.sha256(script.encode()).digest()).decode()}'"


def write(results: Results, out: TextIO, options: Options, sources: Sources) -> None:
    with open(PAGE, encoding="utf-8") as file:
        page = file.read()
    root = os.path.realpath(options.value("--source-root", "."))
    text = Text(out, Colors(False), root, False, options.switches["--full-stacks"], options.switches["--shadow"])
    parts = Page(results, sources, root, text, SourceUrl(options.value("--source-url"), root)).parts()
    parts["SCRIPTS"] = [" ".join(map(allowed, re.findall("<script>(.*?)</script>", page, re.S)))]
    # Inserted text is not searched again: a path may read like a mark of the page.
    for position, piece in enumerate(re.split(r"<!--([A-Z]+)-->", page)):
        if position % 2 == 0:
            out.write(piece)
        else:
            out.writelines(parts[piece])
