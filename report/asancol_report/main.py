"""What asancol-report does: reads, decides what counts, writes."""

from __future__ import annotations

import os
import signal
import stat
import sys
from typing import Callable, List, Optional, TextIO, Tuple

from . import options as command_line
from . import option_table, RELEASE
from .errors import Broken, CLEAN, COUNTS, FAILED, INCOMPLETE, reason, REFUSED, Refused
from .files import write_file
from .findings import Finding
from .gather import Gatherer
from .json_lines import read_whole
from .modules import Modules
from .options import Options
from .patterns import pattern
from .results import Process, Results
from .sources import Sources
from .suppressions import Suppressions
from .symbols import Symbols
from .text import Colors, Text

TYPE_CHECKING = False
if TYPE_CHECKING:
    from .baseline import Baseline
    from .hub import Files
    from .live import Live
    from .log_path import LogPath

# Forms of the text.
OWN, ASAN, GCC, GITHUB = "asancol", "asan", "gcc", "github"

# What a process that halts asks for, and the answer if the report does not count.
NO_FILE, UNCOUNTED = "0:0", "-"

Writer = Callable[[Results, TextIO, Options, Sources], None]


def say(text: object) -> None:
    try:
        print(f"asancol-report: {text}", file=sys.stderr, flush=True)
    except OSError:
        pass


class Report:
    """One run of this program. It loads what it needs when it needs it, since it is to start fast."""

    def __init__(self, options: Options, beside: str) -> None:
        self.options = options
        self.beside = beside
        # Annotations want paths from the checkout, wherever the job runs its tests.
        of_job = os.environ.get("GITHUB_WORKSPACE", "") if options.value("--format") == GITHUB else ""
        root = options.value("--source-root") or of_job
        self.root = os.path.realpath(root) if root else ""
        self.results = Results()
        self.results.lists_unchecked = options.value("--unchecked") != "no"
        self.results.counts_awaited = options.switches["--crashes"]
        self.results.demands_checked = options.value("--unchecked") == "error"
        self.results.has_addresses = options.value("--format") == ASAN or bool(options.value("--log-path"))
        self.modules = Modules()
        self.symbols = Symbols(self.modules)
        self.sources = Sources(self.root)
        self.suppressions = Suppressions()
        self.baseline: Optional[Baseline] = None
        self.has_failed = False
        self.unread: List[Tuple[str, str]] = []  # files that could not be read to their end, and why
        self.text = text_of(options, self.root, has_colors(options))
        self.log = self.log_path()
        self.live: Optional[Live] = None

    def log_path(self) -> Optional[LogPath]:
        prefix = self.options.value("--log-path")
        if not prefix:
            return None
        from .log_path import LogPath
        self.results.has_log = True
        fail = say if self.is_log_alone else self.fail  # nothing is lost then
        return LogPath(prefix, self.root, self.results, self.counts, self.is_log_alone, fail)

    @property
    def is_log_alone(self) -> bool:
        """Whether the files of --log-path alone have reports."""
        return self.options.switches["--log-alone"]

    @property
    def is_live(self) -> bool:
        return self.options.value("--live") == "exit" and self.options.has_text and not self.is_log_alone

    def fail(self, error: object) -> None:
        say(error)
        self.has_failed = True

    def run(self) -> int:
        self.read_rules()
        self.read_input()
        if self.unread and not self.results.runs:
            return FAILED
        for path, why in self.unread:
            if all(run.cut != why for run in self.results.runs):
                self.results.add_cut(path, why)
        self.symbols.end_stay()
        self.judge()
        self.take_shown()
        if self.log is not None:
            self.log.take_others()
        self.results.unused = self.suppressions.unused()
        self.results.gone = self.baseline.gone() if self.baseline else None
        for trouble in self.symbols.troubles():
            self.results.notes[trouble] = None
        self.write()
        return self.status()

    def read_rules(self) -> None:
        """Reads what does not count. In a run that goes on, a mistake there must not lose its reports: the mistake is
        printed at once, and the unused files after the summary."""
        for path in self.options.suppressions:
            self.read_rule(self.read_suppressions, path)
        if self.options.value("--baseline"):
            self.read_rule(self.read_baseline, self.options.value("--baseline"))

    def read_rule(self, read_it: Callable[[str], None], path: str) -> None:
        try:
            read_it(path)
        except (OSError, Broken, Refused) as error:
            if not self.options.switches["--run"]:
                raise
            text = f"{path}: {reason(error)}" if isinstance(error, OSError) else str(error)
            self.fail(text)
            self.note_unused(f"{text}; it was not used", path)

    def note_unused(self, text: str, what: str) -> None:
        """Notes unused files. The mistake in them was printed: the text does not repeat it."""
        self.results.notes[text] = None
        self.text.short[text] = f"{what} was not used"

    def read_suppressions(self, path: str) -> None:
        """Reads a file of suppressions. In a run that goes on, what can be read of it is used. One of a run round this
        one need not match anything here."""
        outer = os.environ.get("ASANCOL_OUTER", "").split("\n")
        for wrong in self.suppressions.read(path, f"--suppressions={path}" in outer):
            if not self.options.switches["--run"]:
                raise Refused(str(wrong))
            self.fail(wrong)
            self.note_unused(f"{wrong}; it was not used", wrong.place)

    def read_baseline(self, path: str) -> None:
        from .baseline import Baseline
        self.baseline = Baseline(path)

    def read_input(self) -> None:
        switches, files = self.options.switches, self.options.files
        if switches["--run"]:
            from .hub import Hub
            Hub(self.results, self.new_gatherer, self.come, self.show).read(0)
            self.read_nested(self.options.value("--nested"))
        if switches["--trace"]:
            self.check_traces(files)
        else:
            for path in files:
                self.read_results(path)
        if switches["--no-machines"]:
            self.results.forget_machines()

    def read_results(self, path: str) -> None:
        """Reads the results that a name stands for: of a folder those in it and below."""
        if not os.path.isdir(path):
            self.read_result(path, False)
            return
        for each in results_below(path):
            self.read_result(each, True)

    def read_result(self, path: str, is_listed: bool) -> None:
        """Reads a result. If that fails, what came before is in the report, and the others are."""
        try:
            read_whole(path, self.results, is_listed)
        except Broken as error:
            self.fail_to_read(path, error)

    def fail_to_read(self, path: str, error: Broken) -> None:
        self.fail(error)
        self.unread.append((path, str(error)))

    def read_nested(self, folder: str) -> None:
        """Reads what runs inside this one have left in its folder; asancol-run says if that is gone, or another."""
        for name in sorted(os.listdir(folder)) if is_own_folder(folder) else ():
            if name.startswith("nested.") and name.endswith(".jsonl"):
                self.read_result(os.path.join(folder, name), True)

    def new_gatherer(self, run: int) -> Gatherer:
        has_rules = self.suppressions.rules or self.baseline
        gatherer = Gatherer(self.results, run, self.modules, self.symbols, self.sources, self.options.value("--leaks"),
                            self.counts if has_rules else None)
        gatherer.rule_of = self.suppressions.rule_of
        gatherer.take_rules = lambda lines: self.take_rules(gatherer, lines)
        return gatherer

    def take_rules(self, gatherer: Gatherer, lines: List[str]) -> None:
        """Takes the suppressions that a program has given: they hold for all processes."""
        for line in lines:
            wrong = self.suppressions.take(line)
            if wrong:
                self.results.notes[f"{wrong}; it was not used"] = None
            gatherer.counts = self.counts

    def counts(self, finding: Finding) -> bool:
        """Returns whether a finding counts that is none of the results."""
        self.suppressions.apply([finding])
        if self.baseline:
            self.baseline.apply([finding])
        return finding.counts

    def check_traces(self, files: List[str]) -> None:
        from .hub import Files, find_run
        from .segments import processes_in
        self.results.are_traces = True
        asancol_run = find_run(self.beside)
        gatherers = []
        for segments in processes_in(files):
            traces = Files(self.results, self.new_gatherer, self.come, segments)
            try:
                gatherer = traces.open()
            except Broken as error:
                self.fail_to_read(segments[0].path, error)
                continue
            if gatherer is not None:
                gatherers.append(gatherer)
                self.check_trace(traces, asancol_run, gatherer)
        for gatherer in gatherers:
            gatherer.finish()
            gatherer.finish_leaks()

    def check_trace(self, traces: Files, asancol_run: str, gatherer: Gatherer) -> None:
        from .hub import CannotCheck
        try:
            traces.check(asancol_run, [f"--leaks={self.options.value('--leaks')}", *self.options.check_words])
        except CannotCheck:
            raise
        except Broken as error:
            self.fail(error)
            self.results.runs[gatherer.run].cut = str(error)

    def come(self, gatherer: Gatherer, process: Process) -> None:
        """Prints what a process has left to its run, and new places, if they are to be printed at once."""
        asks = gatherer.came.asks
        if not self.is_live and self.log is None and not process.is_unsaid and asks is None:
            return
        new = gatherer.finish()
        if process.is_unsaid and not self.is_log_alone and self.options.value("--format") not in (GCC, GITHUB):
            self.print_halted(gatherer.came.findings, asks)
        elif asks is not None and not process.is_unsaid:
            from .hub import answer
            answer(asks, self.halted_text(gatherer.came.findings))
        if self.log is not None:
            self.log.take(gatherer)
        gatherer.came.findings.clear()
        if not self.is_live:
            return
        self.suppressions.apply(new)
        if self.baseline:
            self.baseline.apply(new)
        self.results.fold()
        self.text.new_places([it for it in new if it.place not in self.text.shown], self.results)
        self.flush()

    def show(self, finding: Finding, file: str, connection: int) -> None:
        """Gives a process that goes on its report, which it prints to this file; and tells one that halts, which has
        none, whether it may go on."""
        if file == NO_FILE:
            from .hub import answer
            answer(connection, UNCOUNTED if not self.counts(finding) else "")
            return
        is_text = self.options.has_text and self.options.value("--format") in (OWN, ASAN)
        if not is_text or self.is_log_alone or not self.counts(finding):
            return
        if self.live is None:
            from .live import Live
            self.live = Live(self.text_for)
        self.live.show(finding, file, connection, self.text.most_alone)

    def text_for(self, finding: Finding, file: str) -> str:
        """Returns the text of a finding for a file: with colors, if it is ours."""
        text = self.text if file == own_file() else text_of(self.options, self.root, False)
        return "".join(line + "\n" for line in text.alone(finding, self.results))

    def print_halted(self, findings: List[Finding], asks: Optional[int]) -> None:
        """Prints the reports of a process that has halted, which does that itself if it waits for the words."""
        counted = [finding for finding in findings if self.counts(finding)]
        for finding in counted:
            self.text.shown[finding.place] = self.text.shown.get(finding.place, 0) + 1
        text = self.halted_text(counted)
        if asks is not None:
            from .hub import answer
            if answer(asks, text):
                return
        sys.stdout.write(text)
        self.flush()

    def halted_text(self, findings: List[Finding]) -> str:
        """Returns the reports of a process that has halted, in the words that it would have printed."""
        from .asan_text import AsanText
        text = AsanText(sys.stdout, Colors(False), self.root, False)
        lines = text.findings_text(sorted(findings, key=lambda it: it.order), self.results)
        return "".join(f"{line}\n" for line in lines)

    def take_shown(self) -> None:
        """Takes in what processes have printed where this prints."""
        places = self.live.places(own_file()) if self.live is not None else []
        for place in places:
            self.text.shown[place] = self.text.shown.get(place, 0) + 1
        self.text.places += len(places)

    def judge(self) -> None:
        self.results.place_crashes(self.sources)
        self.results.judge_awaited()
        self.suppressions.apply(self.results.all_places())
        self.results.join_judged()
        if self.baseline:
            self.baseline.apply(self.results.all_places())
        self.results.fold()
        self.results.note_lines()

    def write(self) -> None:
        results = self.results
        says_unchecked = results.lists_unchecked and results.has_unchecked_news()
        has_none = self.is_log_alone or not (results.counted() or results.has_crash())
        is_clean = has_none and results.is_complete() and not says_unchecked
        if self.options.has_text and not (self.options.switches["--quiet"] and is_clean):
            try:
                if self.is_log_alone:
                    self.text.write(self.text.summary(self.results, has_places=False))
                else:
                    self.text.report(self.results, self.is_live)
            except OSError as error:
                self.fail_to_print(error)
        self.flush()
        for name, path in self.options.outputs:
            self.write_output(writer_of(name), path)

    def write_output(self, form: Writer, path: str) -> None:
        try:
            write_file(path, lambda out: form(self.results, out, self.options, self.sources))
        except Broken as error:
            self.fail(error)

    def flush(self) -> None:
        try:
            sys.stdout.flush()
        except OSError as error:
            self.fail_to_print(error)

    def fail_to_print(self, error: OSError) -> None:
        if not isinstance(error, BrokenPipeError):
            say(f"standard output: {reason(error)}")
        self.has_failed = True
        # What could not be written must not be tried again at the end of this program.
        os.dup2(os.open(os.devnull, os.O_WRONLY), 1)

    def status(self) -> int:
        if self.has_failed:
            return FAILED
        if self.results.counted():
            return COUNTS
        return CLEAN if self.results.is_complete() else INCOMPLETE


def is_own_folder(path: str) -> bool:
    """Returns whether a path names a folder of this user, and no link to one."""
    try:
        status = os.lstat(path)
    except OSError:
        return False
    return stat.S_ISDIR(status.st_mode) and status.st_uid == os.geteuid()


def results_below(path: str) -> List[str]:
    """Returns the results in a folder and below, in the order of their names."""
    return sorted(os.path.join(folder, name) for folder, _, names in os.walk(path) for name in names
                  if name.endswith(".jsonl") and not name.startswith("."))


def writer_of(name: str) -> Writer:
    """Returns what writes an output. Each is loaded only if it is asked for."""
    import importlib

    writer: Writer = importlib.import_module(f".{option_table.OUTPUTS[name]}", __package__).write
    return writer


def own_file() -> str:
    """Returns the file to which this prints, as processes name theirs."""
    try:
        status = os.fstat(1)
    except OSError:
        return ""
    return f"{status.st_dev}:{status.st_ino}"


def text_of(options: Options, root: str, is_colored: bool) -> Text:
    """Returns what writes the text."""
    switches = options.switches
    whole = [path for name, path in options.outputs if name in ("--json", "--html")]
    form, below = options.value("--format"), root or os.getcwd()
    if form == ASAN:
        from .asan_text import AsanText
        return AsanText(sys.stdout, Colors(False), root, False)
    text = Text(sys.stdout, Colors(is_colored), below, switches["--gen-suppressions"],
                switches["--full-stacks"], switches["--shadow"], " and ".join(whole))
    if form == GCC:
        from .gcc_text import GccText
        text = GccText(sys.stdout, Colors(False), below, switches["--gen-suppressions"])
    elif form == GITHUB:
        from .github_text import GithubText
        text = GithubText(sys.stdout, Colors(False), below, switches["--gen-suppressions"], switches["--full-stacks"])
    text.rule_root = root
    text.has_all_places = switches["--all-places"]
    text.hidden = {it: pattern(it) for it in options.hidden_frames}
    return text


def has_colors(options: Options) -> bool:
    when = options.value("--color")
    if when != "auto":
        return when == "always"
    if os.environ.get("NO_COLOR"):
        return False
    return bool(os.environ.get("FORCE_COLOR")) or (sys.stdout.isatty() and os.environ.get("TERM") != "dumb")


def set_signals(is_fed: bool) -> None:
    """Ctrl-C ends this program without a word. While asancol-run feeds it, signals to the process group or the session
    are for the command: it goes on until its input ends, so that no report is lost."""
    if is_fed:
        for number in (signal.SIGINT, signal.SIGTERM, signal.SIGHUP, signal.SIGQUIT):
            signal.signal(number, signal.SIG_IGN)
    else:
        signal.signal(signal.SIGINT, signal.SIG_DFL)


def main(argv: List[str], beside: str) -> int:
    """Runs the program with the arguments of its command line, and returns its status."""
    set_signals("--run" in argv)
    sys.stdout = open(1, "w", encoding="utf-8", errors="surrogateescape", newline="\n", closefd=False)
    try:
        options = command_line.read(argv)
        if options.switches["--help"]:
            sys.stdout.write(option_table.HELP)
        elif options.switches["--version"]:
            sys.stdout.write(f"asancol-report {RELEASE}\n")
        elif options.value("--doctor-of"):
            from .doctor import look
            return look(options.value("--doctor-of"), beside)
        elif options.switches["--rules-alone"]:
            Report(options, beside).read_rules()
        else:
            return Report(options, beside).run()
        sys.stdout.flush()
        return CLEAN
    except Refused as error:
        say(error)
        return REFUSED
    except Broken as error:
        say(error)
    except BrokenPipeError:
        os.dup2(os.open(os.devnull, os.O_WRONLY), 1)  # Python would try again at its end
    except OSError as error:
        say(f"{error.filename}: {reason(error)}" if error.filename else reason(error))
    except MemoryError:
        say("no memory")
    return FAILED
