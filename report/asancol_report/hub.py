"""Reads a run that goes on, as asancol-run gives it: packets on standard input, one JSON object each. Traces in files
are such runs too: asancol-run is started for each process of them."""

from __future__ import annotations

import array
import json
import os
import socket
from contextlib import suppress
from typing import Callable, Dict, List, Optional, Set, Tuple

from .errors import Broken, reason
from .findings import Finding, Tally
from .gather import Gatherer
from .json_lines import Commands, end_run, number_of, process_of, run_of, take_notes, text_of, VERSION
from .results import Process, Results, Run
from .running import start, wait
from .segments import identity_of, look_at_sides, number_in, Segment
from .side import Side
from .symbols import on_path

MAX_PACKET_SIZE = 1 << 16
MAX_DESCRIPTORS = 16
# What asancol-run ends with if it can't begin.
OWN_FAILURE = 125
# How a trace ends that was not read to its end.
UNREAD = ("not-checked", "read-failed")
# A number of a process that can't be meant.
MAX_PROCESSES = 1 << 24


def without_reports(process: Process) -> Process:
    return process._replace(is_complete=False, is_abrupt=False, why="its reports did not arrive")


def receive(packets: socket.socket) -> Tuple[bytes, List[int]]:
    """Returns a packet and its descriptors, which no program that this one starts has: with its connection open there,
    a process would wait for a report that does not come. socket.recv_fds takes no heed of flags in Python 3.11."""
    numbers = array.array("i")
    room = socket.CMSG_LEN(MAX_DESCRIPTORS * numbers.itemsize)
    text, ancillary, _, _ = packets.recvmsg(MAX_PACKET_SIZE, room, socket.MSG_CMSG_CLOEXEC)
    for level, kind, data in ancillary:
        if (level, kind) == (socket.SOL_SOCKET, socket.SCM_RIGHTS):
            numbers.frombytes(data[:len(data) - len(data) % numbers.itemsize])
    return text, list(numbers)


# Takes a finding, the file to which its process prints it, and the connection on which that waits for the text.
Show = Callable[[Finding, str, int], None]


class Hub:
    """The run whose packets come on a socket."""

    def __init__(self, results: Results, new_gatherer: Callable[[int], Gatherer],
                 come: Callable[[Gatherer, Process], None], show: Optional[Show] = None) -> None:
        self.results = results
        self.new_gatherer = new_gatherer
        self.come = come  # is called when a process with reports was taken in
        self.show = show  # and this when one that goes on waits for a report
        self.gatherer: Optional[Gatherer] = None
        self.number = 0
        self.lost: Set[int] = set()  # processes whose reports did not arrive
        self.due: Set[int] = set()  # and those whose reports have to come with a later packet
        self.commands: Commands = {}

    def read(self, descriptor: int) -> None:
        """Reads all packets. If the hub goes away before its last one, the run counts as incomplete."""
        try:
            packets = socket.socket(fileno=os.dup(descriptor))
        except OSError:
            raise Broken("--run: standard input is not a socket: asancol-run gives one") from None
        self.read_packets(packets)
        if self.gatherer is None:
            raise Broken("--run: no run came on standard input")
        self.gatherer.finish()
        self.gatherer.finish_leaks()
        self.gatherer.note_awaited()

    def read_packets(self, packets: socket.socket) -> None:
        with packets:
            while True:
                text, descriptors = receive(packets)
                try:
                    if not text or self.take(text, list(descriptors)) == "end":
                        break
                finally:
                    for each in descriptors:
                        os.close(each)

    def take(self, text: bytes, descriptors: List[int]) -> str:
        """Takes in a packet and returns its type. One that can't be read is named, and nothing else."""
        try:
            entry = json.loads(text)
            kind = text_of(entry["type"])
            if kind != "run" and self.gatherer is None:
                raise ValueError
        except (ValueError, KeyError, TypeError, RecursionError):
            self.results.notes["a message of asancol-run was not understood"] = None
            return ""
        if kind == "run":
            self.begin(entry)
        elif kind == "process":
            self.take_process(entry, descriptors)
        elif kind == "show":
            self.take_question(entry, descriptors)
        elif kind == "end":
            self.end(entry)
            take_notes(entry, self.results)
        return kind

    def end(self, entry: Dict[str, object]) -> None:
        processes = self.results.runs[self.number].processes
        for number in self.due:
            processes[number] = without_reports(processes[number])
        end_run(self.results.runs[self.number], entry)

    def begin(self, entry: Dict[str, object]) -> None:
        if number_of(entry.get("version")) > VERSION:
            raise Broken("--run: this asancol-run is newer than this asancol-report")
        if self.gatherer is not None:
            return
        run = run_of(entry)
        run.has_ended = False
        self.number = self.results.add_run(run) or 0
        self.gatherer = self.new_gatherer(self.number)

    def take_process(self, entry: Dict[str, object], descriptors: List[int]) -> None:
        """Takes in the data of a process so far. A later packet replaces what an earlier one says, and may bring
        the reports of another segment."""
        process = self.known(process_of(entry, self.commands))
        segment = number_of(entry.get("segment"))
        processes = self.results.runs[self.number].processes
        before = processes.get(process.number)
        if descriptors:
            self.due.discard(process.number)
        elif segment:
            self.lost.add(process.number)
        elif (process.reports or process.findings) and before is None:
            self.due.add(process.number)
        if before is not None:
            process = process._replace(address=before.address, access=before.access, crash=before.crash,
                                       stack=before.stack, threads=before.threads)
        processes[process.number] = without_reports(process) if process.number in self.lost else process
        if not descriptors or self.gatherer is None or process.number >= MAX_PROCESSES:
            return
        asks = descriptors.pop() if entry.get("asks") is True and len(descriptors) > 1 else None
        files = min(number_of(entry.get("files")), len(descriptors) - 1)
        end = len(descriptors) - files
        for each in descriptors[end:]:
            self.gatherer.modules.give(each)
        side = self.side_of(text_of(entry.get("trace")), descriptors[1:end])
        is_printed = process.is_unsaid or asks is not None
        if is_printed:
            self.gatherer.finish()
        self.gatherer.is_each_kept = is_printed
        self.gatherer.came.asks = asks
        try:
            self.gatherer.take(process.number, process.pid, descriptors[0], side, segment or 1)
        finally:
            if side is not None:
                side.close()
        self.come(self.gatherer, process)

    def take_question(self, entry: Dict[str, object], descriptors: List[int]) -> None:
        """Takes a report that a process waits for. The data of its process come later, with all of its reports."""
        number = number_of(entry.get("n"))
        files = min(number_of(entry.get("files")), len(descriptors) - 2)
        if files < 0 or self.gatherer is None or self.show is None or number >= MAX_PROCESSES:
            return
        for each in descriptors[1:1 + files]:
            self.gatherer.modules.give(each)
        side = self.side_of("", descriptors[:1])
        if side is None:
            return
        first = Tally(1, 1, number, number_of(entry.get("pid")), 0, number_of(entry.get("segment")) or 1)
        line, fault = text_of(entry.get("line")), number_of(entry.get("entry"))
        try:
            for finding in self.gatherer.alone(side, first, line.encode(), fault):
                self.show(finding, text_of(entry.get("file")), descriptors[-1])
        finally:
            side.close()

    def known(self, process: Process) -> Process:
        """Returns a process with what else is known of it."""
        return process

    def side_of(self, trace: str, descriptors: List[int]) -> Optional[Side]:
        """Returns the side memory that came with a process, or that lies beside its trace."""
        try:
            return Side(os.dup(descriptors[0])) if descriptors else Side.open(trace + ".where") if trace else None
        except (OSError, ValueError):
            return None


def answer(connection: int, text: str) -> bool:
    """Gives a process that waits its report. False: it has not all of it. It may be gone, or stand still: then nobody
    waits for it."""
    data = text.encode(errors="surrogateescape")
    with socket.socket(fileno=os.dup(connection)) as waiting, suppress(OSError):
        return waiting.send(data, socket.MSG_DONTWAIT | socket.MSG_NOSIGNAL) == len(data)
    return False


def find_run(beside: str) -> str:
    """Returns asancol-run: beside this program, in the tree, or on PATH."""
    for folder in (beside, os.path.join(os.path.dirname(beside), "run")):
        path = os.path.join(folder, "asancol-run")
        if os.path.isfile(path) and os.access(path, os.X_OK):
            return path
    found = on_path("asancol-run")
    if found is None:
        raise CannotCheck("asancol-run is not there, which checks traces")
    return found


class CannotCheck(Broken):
    """No trace can be checked."""


class Files(Hub):
    """A process whose traces lie in files, as a run of its own."""

    def __init__(self, results: Results, new_gatherer: Callable[[int], Gatherer],
                 come: Callable[[Gatherer, Process], None], segments: List[Segment]) -> None:
        super().__init__(results, new_gatherer, come)
        self.segments = segments
        self.trace = segments[0].path

    def open(self) -> Optional[Gatherer]:
        """Begins the run, and returns what gathers it. None, if it was given before."""
        try:
            run = Run([self.trace], identity_of(self.segments))
            run.time = float(int(os.stat(self.trace).st_mtime))
        except OSError as error:
            raise Broken(f"{error.filename}: {reason(error)}") from None
        run.host = os.uname().nodename
        run.directory = os.getcwd()
        number = self.results.add_run(run)
        if number is None:
            return None
        self.number = number
        self.gatherer = self.new_gatherer(number)
        return self.gatherer

    def check(self, asancol_run: str, options: List[str]) -> None:
        """Has the traces checked. Broken, if one was not read to its end."""
        look_at_sides(self.segments, self.results.notes)
        argv = [asancol_run, "--files", *options, "--", *(f"{it.number}:{it.path}" for it in self.segments)]
        ours, theirs = socket.socketpair(socket.AF_UNIX, socket.SOCK_SEQPACKET)
        try:
            with theirs, open(os.devnull, "rb") as nothing:
                child = start(argv, nothing.fileno(), theirs.fileno())
        except OSError as error:
            ours.close()
            raise CannotCheck(f"{asancol_run} can't be run: {reason(error)}") from None
        self.read_packets(ours)
        status = wait(child)
        if status:
            ended = CannotCheck if status == OWN_FAILURE else Broken
            raise ended(f"{asancol_run} ended with status {status}")
        run = self.results.runs[self.number]
        for process in list(run.processes.values()):
            run.signal = process.signal
            if process.fate in UNREAD:
                run.processes.clear()
                raise Broken(f"{self.trace}: {process.why}")

    def end(self, entry: Dict[str, object]) -> None:
        """Takes in the unchecked code. What else a run says at its end is not known of files."""
        ended = run_of(entry)
        run = self.results.runs[self.number]
        run.unchecked, run.unchecked_more = ended.unchecked, ended.unchecked_more
        run.system, run.system_more = ended.system, ended.system_more

    def known(self, process: Process) -> Process:
        """Returns a process with what the names of its files say. If it left its text to its run, that printed it."""
        command = process.command if process.pid and process.command else (self.trace,)
        return process._replace(command=command, pid=process.pid or number_in(self.trace),
                                kept=os.path.abspath(self.trace), is_unsaid=False)
