"""Results as JSON lines: what asancol-report writes with --json and merges. asancol-results(5) describes each field."""

from __future__ import annotations

import functools
import json
import sys
from typing import Any, Callable, Dict, Iterable, Iterator, List, NamedTuple, Optional, TextIO, Tuple, Union

from .class_names import LEAK
from .crashes import Crash
from .errors import Broken, reason
from .findings import (Block, calls_to_leak, DYNAMIC, Finding, first_own, Frame, GLOBAL, HEAP, MAX_NUMBERS, MAX_TESTS,
                       near_of, Place, Rows, STACK, Stack, Tally, Thread, Threads, UNKNOWN_THREAD)
from .leaks import leak_text, Leaks
from .reading import open_regular
from .results import Process, Results, Run
from .side import ACCESSES
from .variables import Variable
from .words import plural

VERSION = 1
# Who has judged a finding, if it was not the checker.
RECORDER = "recorder"
MAX_NUMBER = (1 << 64) - 1
# A finding has some stacks, whose names of functions may be long.
MAX_LINE_LENGTH = 1 << 26
# At most this many commands and other texts of processes are kept encoded.
MAX_ENCODED = 1 << 14

# A line that begins a run, has a process of it, or a finding.
Entry = Dict[str, Any]
NO_THREADS, NO_LEAKS = Threads(), Leaks()
# Commands that came up, each once.
Commands = Dict[Tuple[str, ...], Tuple[str, ...]]


class Counts(NamedTuple):
    """How many runs a file has, and how many processes and findings a run has in it. A file that is cut has fewer."""

    runs: int
    processes: int
    findings: int


# Writing.

def run_entry(run: Run, number: int, counts: Counts) -> Entry:
    entry = {
        "type": "run", "version": VERSION, "run": number, "id": run.identity, "command": list(run.command),
        "host": run.host, "directory": run.directory, "time": run.time, "seconds": run.seconds, "status": run.status,
        "signal": run.signal, "ended": run.has_ended, "nothing": run.is_nothing, "missing": run.missing,
        "running": run.is_running, "timed_out": run.has_timed_out, "lost": run.lost,
        "runs": counts.runs, "processes": counts.processes, "findings": counts.findings,
    }
    if run.said:
        entry["troubles"] = list(run.said)
    if run.unchecked or run.unchecked_more:
        entry["unchecked"], entry["unchecked_more"] = list(run.unchecked), run.unchecked_more
    if run.unrecorded or run.unrecorded_more:
        entry["unrecorded"], entry["unrecorded_more"] = list(run.unrecorded), run.unrecorded_more
    if run.system or run.system_more:
        entry["system"], entry["system_more"] = list(run.system), run.system_more
    if run.cut:
        entry["cut"] = run.cut
    if run.leaks.places:
        entry["leaks"] = run.leaks._asdict()
    return entry


SHORT = (",", ":")

# There may be a million processes, and as many findings in runs: their lines are put together here, and what comes
# again is encoded once.

def process_line(process: Process, run: int, crash: Optional[Crash], encode: Callable[[object], str]) -> str:
    kept = f',"kept":{encode(process.kept)}' if process.kept else ""
    if process.signal:
        kept += f',"signal":{process.signal}'
    if process.is_abrupt:
        kept += ',"abrupt":true'
    if process.is_awaited:
        kept += ',"awaited":true'
    if process.has_halted:
        kept += ',"halted":true'
    if process.findings:
        kept += f',"findings":{process.findings}'
    if process.test:
        kept += f',"test":{encode(process.test)}'
    if process.segments > 1:
        kept += f',"segments":{process.segments}'
    if process.used_again:
        kept += f',"used_again":{process.used_again}'
    if process.address is not None:
        kept += f',"address":"{process.address:x}"'
    if process.access:
        kept += f',"access":"{process.access}"'
    if process.stack:
        kept += f',"stack":{json.dumps([frame_entry(frame) for frame in process.stack], separators=SHORT)}'
    threads = threads_entry(process.threads)
    if threads:
        kept += "," + json.dumps(threads, separators=SHORT)[1:-1]
    if crash is not None:
        named = {"crash": crash.class_name, "fingerprint": crash.fingerprint, **judgement_entry(crash)}
        kept += "," + json.dumps(named, separators=SHORT)[1:-1]
    return (f'{{"type":"process","run":{run},"n":{process.number},"pid":{process.pid},"parent":{process.parent},'
            f'"command":{encode(process.command)},"fate":{encode(process.fate)},"events":{process.events},'
            f'"reports":{process.reports},"whole":{encode(process.is_complete)},"left_out":{process.left_out},'
            f'"why":{encode(process.why)}{kept}}}')


def finding_line(tally: Tally, run: int, rest: str) -> str:
    """Returns the line of a finding from what a run has of it, and from the rest, which is the same in all runs."""
    segment = f'"segment":{tally.segment},' if tally.segment > 1 else ""
    segment += f'"after":{tally.after},' if tally.after else ""
    segment += f'"number":{tally.number},' if tally.number else ""
    segment += '"awaited":true,' if tally.is_awaited else ""
    segment += f'"tests":{json.dumps(tally.tests, separators=SHORT)},' if tally.tests else ""
    segment += f'"seen_in":{[*tally.numbers]},'.replace(" ", "") if len(tally.numbers) > 1 else ""
    return (f'{{"type":"finding","run":{run},"count":{tally.times},"processes":{tally.processes},'
            f'"process":{tally.process},"pid":{tally.pid},"event":{tally.event},{segment}{rest[1:]}')


def frame_entry(frame: Frame) -> Entry:
    if frame.note:
        return {"note": frame.note}
    entry: Entry = {"offset": f"{frame.offset:x}"}
    for name, value in (("module", frame.module), ("build_id", frame.build), ("function", frame.function),
                        ("file", frame.file), ("line", frame.line), ("column", frame.column),
                        ("inlined", frame.is_inlined), ("bare", frame.is_bare), ("text", frame.text)):
        if value:
            entry[name] = value
    if frame.caret is not None:
        entry["caret"] = frame.caret
    return entry


def block_entry(block: Block) -> Entry:
    entry: Entry = {"kind": block.kind, "address": f"{block.address:x}", "size": block.size}
    if block.kind != HEAP:
        entry["name"] = block.name
    if block.file:
        entry["file"] = block.file
    if block.line:
        entry["line"] = block.line
    if block.function:
        entry["function"] = frame_entry(block.function)
    if block.frame and block.variables:
        entry["frame"] = f"{block.frame:x}"
        entry["variables"] = [it._asdict() for it in block.variables]
    return entry


def threads_entry(threads: Threads) -> Entry:
    """Returns the fields of threads that are not the first one, or have a name."""
    numbers = {"thread": threads.access, "allocated_thread": threads.allocated, "freed_thread": threads.freed}
    entry: Entry = {name: number for name, number in numbers.items() if number}
    if threads.all:
        entry["threads"] = [thread_entry(it) for it in threads.all]
    return entry


def thread_entry(thread: Thread) -> Entry:
    entry: Entry = {"number": thread.number, "creator": thread.creator}
    if thread.name:
        entry["name"] = thread.name
    if thread.system_number:
        entry["tid"] = thread.system_number
    entry["created"] = [frame_entry(frame) for frame in thread.created]
    return entry


def finding_entry(finding: Finding, lost: Leaks) -> Entry:
    """Returns the part of a finding that is the same in all runs, except the bytes that a leak has lost in one."""
    entry: Entry = {
        "fingerprint": finding.fingerprint, "class": finding.class_name,
        "access": finding.access, "size": finding.size, "address": f"{finding.address:x}",
        "bad": None if finding.bad is None else f"{finding.bad:x}", "shadow": finding.shadow or None,
        "stack": [frame_entry(frame) for frame in finding.stack],
    }
    if finding.raw_class != finding.class_name:
        entry["raw_class"] = finding.raw_class
    if finding.call:
        entry["call"] = finding.call
    if finding.allocator:
        entry["allocator"] = finding.allocator
    if finding.by_recorder:
        entry["by"], entry["said"] = RECORDER, finding.said
    if lost.blocks:
        entry.update(size=lost.bytes, blocks=lost.blocks, said=leak_text(finding.class_name, lost))
    if finding.rows.shadow:
        entry["rows"] = {"start": f"{finding.rows.start:x}", "shadow": finding.rows.shadow.hex()}
    if finding.block:
        entry["block"] = block_entry(finding.block)
        entry["where"] = finding.where
    if finding.is_forgotten:
        entry["forgotten"] = True
    for name, stack in (("allocated", finding.allocated), ("freed", finding.freed)):
        if stack:
            entry[name] = [frame_entry(frame) for frame in stack]
    entry.update(threads_entry(finding.threads))
    return {**entry, **judgement_entry(finding)}


def judgement_entry(finding: Finding) -> Entry:
    """Returns whether a finding or a crash counts."""
    entry = {"suppressed": finding.suppression} if finding.suppression else {}
    if finding.is_known is not None:
        entry["baseline"] = "unchanged" if finding.is_known else "new"
    if finding.follows is not None:
        entry["follows"] = finding.follows.fingerprint
    return entry


def lines_of(results: Results) -> Iterator[str]:
    encode = json.JSONEncoder(separators=SHORT).encode
    encode_again = functools.lru_cache(maxsize=MAX_ENCODED, typed=True)(encode)
    shared: Dict[int, str] = {}

    def rest_of(finding: Finding, lost: Leaks) -> str:
        rest = shared.get(id(finding)) or encode(finding_entry(finding, lost))
        if len(finding.runs) > 1 and not lost.blocks:
            shared[id(finding)] = rest
        return rest

    findings: Dict[int, List[Finding]] = {}
    for finding in results.findings():
        for number in finding.runs:
            findings.setdefault(number, []).append(finding)
    for number, run in enumerate(results.runs):
        mine = findings.get(number, [])
        yield encode(run_entry(run, number, Counts(len(results.runs), len(run.processes), len(mine))))
        for process in run.processes.values():
            yield process_line(process, number, results.crash_of(process), encode_again)
        for finding in mine:
            tally = finding.runs[number]
            yield finding_line(tally, number, rest_of(finding, tally.lost))
    for note in results.notes:
        yield encode({"type": "note", "text": note})


def write(results: Results, out: TextIO, *_: object) -> None:
    for line in lines_of(results):
        out.write(line + "\n")


# Reading. What has another type than it should is as if it were missing; missing values have defaults.

def text_of(value: object) -> str:
    return value if isinstance(value, str) else ""


def number_of(value: object) -> int:
    return value if type(value) is int and 0 <= value <= MAX_NUMBER else 0


def signed_of(value: object) -> int:
    return value if isinstance(value, int) and abs(value) < 1 << 31 else 0


def seconds_of(value: object) -> float:
    return float(value) if isinstance(value, (int, float)) and 0 <= value < 1e11 else 0.0


def address_of(value: object) -> int:
    try:
        return int(value, 16) if isinstance(value, str) and len(value) <= 16 else 0
    except ValueError:
        return 0


def words_of(value: object) -> Tuple[str, ...]:
    return tuple(sys.intern(word) for word in value if isinstance(word, str)) if isinstance(value, list) else ()


def run_of(entry: Entry) -> Run:
    run = Run(words_of(entry.get("command")), text_of(entry.get("id")))
    run.host = text_of(entry.get("host"))
    run.directory = text_of(entry.get("directory"))
    run.time = seconds_of(entry.get("time"))
    end_run(run, entry)
    # What asancol-run leaves by itself has neither, and an end follows.
    run.has_ended = entry.get("ended", "run" in entry) is not False
    run.cut = text_of(entry.get("cut"))
    leaks = entry.get("leaks")
    if isinstance(leaks, dict):
        run.leaks = Leaks(*(number_of(leaks.get(name)) for name in Leaks._fields))
    return run


def take_notes(entry: Entry, results: Results) -> None:
    """Takes in the lines for the reader that come with the end of a run."""
    for note in words_of(entry.get("notes")):
        results.notes[note] = None


def end_run(run: Run, entry: Entry) -> None:
    """Takes in how a run has ended."""
    run.has_ended = True
    run.seconds = seconds_of(entry.get("seconds"))
    run.status = signed_of(entry.get("status"))
    run.signal = signed_of(entry.get("signal"))
    run.is_nothing = bool(entry.get("nothing"))
    run.missing = number_of(entry.get("missing"))
    run.is_running = bool(entry.get("running"))
    run.has_timed_out = bool(entry.get("timed_out"))
    run.lost = number_of(entry.get("lost"))
    run.said = words_of(entry.get("troubles"))
    run.unchecked = dict.fromkeys(words_of(entry.get("unchecked")))
    run.unchecked_more = number_of(entry.get("unchecked_more"))
    run.unrecorded = dict.fromkeys(words_of(entry.get("unrecorded")))
    run.unrecorded_more = number_of(entry.get("unrecorded_more"))
    run.system = dict.fromkeys(words_of(entry.get("system")))
    run.system_more = number_of(entry.get("system_more"))


def command_of(value: object, commands: Commands) -> Tuple[str, ...]:
    """Returns the arguments of a command. Processes that have the same command share it."""
    if type(value) is not list:
        return ()
    try:
        return commands[tuple(value)]
    except (KeyError, TypeError):
        words = words_of(value)
        return commands.setdefault(words, words)


def process_of(entry: Entry, commands: Commands) -> Process:
    get = entry.get
    return Process(number_of(get("n")), number_of(get("pid")), number_of(get("parent")),
                   command_of(get("command"), commands), sys.intern(text_of(get("fate"))), number_of(get("events")),
                   number_of(get("reports")), get("whole") is True, number_of(get("left_out")),
                   sys.intern(text_of(get("why"))), text_of(get("kept")), number_of(get("signal")),
                   address_of(get("address")) if "address" in entry else None, stack_of(get("stack")),
                   get("abrupt") is True and get("whole") is True, number_of(get("segments")) or 1,
                   text_of(get("crash")), text_of(get("fingerprint")),
                   next((it for it in ACCESSES.values() if it == get("access")), ""),
                   threads_of(entry) if "threads" in entry or "thread" in entry else NO_THREADS,
                   number_of(get("findings")), get("awaited") is True, number_of(get("used_again")),
                   get("halted") is True, get("unsaid") is True, text_of(get("test")))


def frame_of(entry: object) -> Frame:
    get = entry.get if isinstance(entry, dict) else {}.get
    return Frame(text_of(get("module")), address_of(get("offset")), text_of(get("build_id")), text_of(get("function")),
                 text_of(get("file")), number_of(get("line")), number_of(get("column")), get("inlined") is True,
                 text_of(get("text")), text_of(get("note")), None if get("caret") is None else number_of(get("caret")),
                 get("bare") is True)


def stack_of(value: object) -> Stack:
    return tuple(frame_of(frame) for frame in value) if isinstance(value, list) else ()


def kind_of(value: object) -> str:
    return str(value) if value in (STACK, GLOBAL, DYNAMIC) else HEAP


def block_of(entry: object) -> Optional[Block]:
    if not isinstance(entry, dict):
        return None
    return Block(address_of(entry.get("address")), number_of(entry.get("size")), kind_of(entry.get("kind")),
                 text_of(entry.get("name")), text_of(entry.get("file")),
                 number_of(entry.get("line")), address_of(entry.get("frame")),
                 frame_of(entry["function"]) if "function" in entry else None, variables_of(entry.get("variables")))


def variables_of(value: object) -> Tuple[Variable, ...]:
    entries = [it for it in value if isinstance(it, dict)] if isinstance(value, list) else []
    return tuple(Variable(number_of(it.get("offset")), number_of(it.get("size")), text_of(it.get("name")),
                          number_of(it.get("line"))) for it in entries)


def rows_of(entry: object) -> Rows:
    get = entry.get if isinstance(entry, dict) else {}.get
    try:
        return Rows(address_of(get("start")), bytes.fromhex(text_of(get("shadow"))))
    except ValueError:
        return Rows()


def threads_of(entry: Entry) -> Threads:
    listed = entry.get("threads")
    entries = [it for it in listed if isinstance(it, dict)] if isinstance(listed, list) else []
    access, allocated, freed = (thread_number_of(entry.get(f"{of}thread")) for of in ("", "allocated_", "freed_"))
    return Threads(access, allocated, freed, tuple(thread_of(it) for it in entries))


def thread_number_of(value: object) -> int:
    return UNKNOWN_THREAD if value == UNKNOWN_THREAD else number_of(value)


def thread_of(entry: Entry) -> Thread:
    return Thread(number_of(entry.get("number")), thread_number_of(entry.get("creator")), text_of(entry.get("name")),
                  number_of(entry.get("tid")), stack_of(entry.get("created")))


def finding_of(entry: Entry) -> Finding:
    get = entry.get
    size, bad = get("size"), get("bad")
    finding = Finding(text_of(get("class")), text_of(get("access")), None if size is None else number_of(size),
                      address_of(get("address")), None if bad is None else address_of(bad))
    finding.raw_class = text_of(get("raw_class")) or finding.class_name
    finding.call, finding.allocator = text_of(get("call")), text_of(get("allocator"))
    finding.by_recorder = get("by") == RECORDER
    finding.said = text_of(get("said"))
    finding.is_forgotten = get("forgotten") is True
    finding.shadow = text_of(get("shadow"))
    finding.rows = rows_of(get("rows"))
    finding.stack = stack_of(get("stack"))
    finding.block = block_of(get("block"))
    finding.allocated = stack_of(get("allocated"))
    finding.freed = stack_of(get("freed"))
    finding.threads = threads_of(entry)
    finding.fingerprint = text_of(get("fingerprint"))
    finding.rule = text_of(get("suppressed"))
    return finding


def numbers_of(value: object) -> Tuple[int, ...]:
    return tuple(map(number_of, value[:MAX_NUMBERS])) if isinstance(value, list) else ()


def tally_of(entry: Entry) -> Tally:
    get = entry.get
    return Tally(number_of(get("count")), number_of(get("processes")), number_of(get("process")), number_of(get("pid")),
                 number_of(get("event")), number_of(get("segment")) or 1, number_of(get("after")),
                 number_of(get("number")), lost_of(entry), get("awaited") is True,
                 numbers_of(get("seen_in")) or (number_of(get("process")),), words_of(get("tests"))[:MAX_TESTS])


def lost_of(entry: Entry) -> Leaks:
    blocks = number_of(entry.get("blocks"))
    return Leaks(1, blocks, number_of(entry.get("size"))) if blocks else NO_LEAKS


def own_of(stack: object) -> Tuple[str, str, int, int]:
    """Returns function, file, line and column of the frame that stands for a place: as `Finding.top` finds it."""
    frames = [frame for frame in stack if isinstance(frame, dict)] if isinstance(stack, list) else []
    at, _ = first_own((text_of(frame.get("file")), number_of(frame.get("line")), text_of(frame.get("module")),
                       frame.get("bare") is True) for frame in frames)
    get = frames[at].get if frames else {}.get
    return text_of(get("function")), text_of(get("file")), number_of(get("line")), number_of(get("column"))


def place_of(entry: Entry) -> Place:
    """Returns the place of a finding, as `Finding.place` has it, without all of it being read."""
    _, _, line, column = own_of(entry.get("stack"))
    block = entry.get("block")
    near: Tuple[str, ...] = ()
    if (text_of(entry.get("raw_class")) or text_of(entry.get("class"))) == LEAK:
        near = calls_to_leak(stack_of(entry.get("stack")))
    elif isinstance(block, dict):
        bad = address_of(entry.get("address") if entry.get("bad") is None else entry["bad"])
        near = near_of(kind_of(block.get("kind")), text_of(block.get("name")), bad - address_of(block.get("address")),
                       number_of(block.get("size")), own_of(entry.get("allocated"))[:3])
    return Place(entry["fingerprint"], line, column, text_of(entry.get("class")), near,
                 text_of(entry.get("suppressed")))


class Reader:
    """Reads one file into results."""

    def __init__(self, results: Results, name: str) -> None:
        self.results = results
        self.name = name
        self.runs: Dict[int, Optional[int]] = {}  # numbers here; None, if a run is there already
        self.last = 0
        self.wanted: Dict[int, Counts] = {}  # what the runs say, as far as they do
        self.found: Dict[int, List[int]] = {}  # the processes and findings that have come
        self.missing = ""  # what has not come
        self.commands: Commands = {}

    def read(self, lines: Iterable[str]) -> None:
        """Takes in all lines. Broken, if one is no line of a result; those before it are taken."""
        take = {"run": self.take_run, "process": self.take_process, "finding": self.take_finding, "end": self.take_end,
                "note": self.take_note}
        decode = json.JSONDecoder().raw_decode
        number = 0
        try:
            for number, line in enumerate(lines, 1):
                if len(line) > MAX_LINE_LENGTH:
                    raise Broken(f"{self.name}:{number}: a line of more than {MAX_LINE_LENGTH} characters")
                if line.isspace():
                    continue
                entry, end = decode(line)
                if line[end:].strip():
                    raise ValueError
                take.get(entry["type"], self.skip)(entry)
        except (ValueError, KeyError, TypeError, AttributeError, RecursionError):
            raise Broken(f"{self.name}:{number}: not a result of asancol-report --json") from None
        if not self.runs:
            raise Broken(f"{self.name}: there is no run in it")
        self.look_over()

    def skip(self, entry: Entry) -> None:
        """Takes in a line of a type that a later release has."""

    def look_over(self) -> None:
        """Compares the runs that have come with what they say themselves, and notes missing ones."""
        for number, wanted in self.wanted.items():
            found = Counts(len(self.runs), *self.found[number])
            for has, should, one in zip(found, wanted, ("run", "process", "finding")):
                if has < should:
                    where = "" if one == "run" else f" of run {number}"
                    text = f"{self.name} is cut: it has {has} of {plural(should, one)}{where}"
                    self.missing = self.missing or text
                    run = self.runs.get(number)
                    if one != "run" and run is not None:
                        self.results.runs[run].cut = text

    def take_run(self, entry: Entry) -> None:
        version = number_of(entry.get("version"))
        if version > VERSION:
            raise Broken(f"{self.name}: version {version} of results is newer than this asancol-report, "
                         f"which knows version {VERSION}")
        self.last = number_of(entry.get("run"))
        if self.last in self.runs:  # another file comes after the first one
            self.look_over()
            self.runs, self.wanted, self.found = {}, {}, {}
        self.runs[self.last] = self.results.add_run(run_of(entry))
        self.found[self.last] = [0, 0]
        if "runs" in entry:
            self.wanted[self.last] = Counts(*(number_of(entry.get(name)) for name in Counts._fields))

    def take_end(self, entry: Entry) -> None:
        """Takes in the end of a run that needed no report: asancol-run leaves it to a run round it as it came."""
        run = self.runs[self.last]
        if run is not None:
            end_run(self.results.runs[run], entry)
            take_notes(entry, self.results)

    def take_process(self, entry: Entry) -> None:
        number = number_of(entry.get("run", self.last))
        run = self.runs[number]
        self.found[number][0] += 1
        if run is not None:
            process = process_of(entry, self.commands)
            self.results.runs[run].processes[process.number] = process

    def take_finding(self, entry: Entry) -> None:
        number = number_of(entry.get("run"))
        run = self.runs[number]
        self.found[number][1] += 1
        if run is None:
            return
        known = self.results.places.get(place_of(entry))
        if known is None:
            self.results.add(finding_of(entry), run, tally_of(entry))
        else:
            self.results.tally(known, run, tally_of(entry))

    def take_note(self, entry: Entry) -> None:
        self.results.notes[text_of(entry.get("text"))] = None


def read(path: str, results: Results, is_listed: bool = False) -> str:
    """Reads a file, or standard input for `-`, into results. Returns a text on missing parts, or nothing. Broken, if it
    can't be read; what came before is in the results. One that a folder lists has to be a regular file."""
    is_standard = path == "-" and not is_listed
    name = "standard input" if is_standard else path
    try:
        source: Union[int, str] = 0 if is_standard else open_regular(path) if is_listed else path
        with open(source, encoding="utf-8", errors="surrogateescape", closefd=not is_standard) as file:
            reader = Reader(results, name)
            reader.read(iter(lambda: file.readline(MAX_LINE_LENGTH + 1), ""))
            return reader.missing
    except OSError as error:
        raise Broken(f"{name}: {reason(error)}") from None


def read_whole(path: str, results: Results, is_listed: bool = False) -> None:
    """Reads a file as `read` does. Broken also if something is missing."""
    missing = read(path, results, is_listed)
    if missing:
        raise Broken(missing)
