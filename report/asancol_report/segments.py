"""Traces of one process in several files.

A recording that reaches the limit of events goes on in another segment, with a trace and a side file for itself:
run.trace, run.segment-002.trace and so on. All of them are one process.
"""

from __future__ import annotations

import hashlib
import os
import re
from typing import Dict, List, NamedTuple, Set, Tuple

from .errors import reason
from .reading import open_regular, read_at
from .side import ENDING_NONE, ENDING_SEGMENT, HEAD, HEADER, MAPS_AT, PROGRESS, PROGRESS_AT, trouble_of

# What the segments of a process share.
Key = Tuple[str, ...]


class Segment(NamedTuple):
    """A trace in a file, which is the whole recording of its process or one of its segments."""

    path: str
    number: int  # in its process, from 1


# The names of the traces of one process, without what tells its segments apart: what comes before it, and after it.
Family = Tuple[str, str]


def apart(name: str) -> Tuple[Family, int]:
    """Takes the name of a trace apart: STEM.trace, STEM.segment-002.trace, or STEM.segment-002.1.trace, if that was
    taken."""
    found = re.fullmatch(r"(.+)\.segment-([0-9]{3,9})(?:\.[0-9]+)?(|\.[^.]*)", name)
    return ((found[1], found[3]), int(found[2])) if found else (os.path.splitext(name), 1)


def names_in(folder: str) -> Dict[Family, List[str]]:
    """Returns the names in a folder by their families; none, if nobody may list it."""
    families: Dict[Family, List[str]] = {}
    try:
        names = sorted(os.listdir(folder))
    except OSError:
        return families
    for name in names:
        families.setdefault(apart(name)[0], []).append(name)
    return families


class Known(NamedTuple):
    """What a trace says of the process that it belongs to."""

    key: Key
    number: int
    has_side: bool = False
    has_ended: bool = False  # the process has: none follows


def known_of(path: str) -> Known:
    """Returns what the side file of a trace says. Without one its name stands for it; nobody knows then if another
    follows."""
    folder, name = os.path.split(path)
    folder = os.path.realpath(folder)
    family, number = apart(name)
    head, progress = fronts_of(path + ".where")
    if len(head) < HEAD.size or not head.startswith(HEADER) or len(progress) < PROGRESS.size:
        return Known((folder, *family), number)
    _, _, _, ending, _, process, _, started, *_ = HEAD.unpack(head)
    before = PROGRESS.unpack(progress)[1]
    key = (folder, str(process), str(started), "process") if started else (os.path.realpath(path),)
    return Known(key, before + 1, has_side=True, has_ended=ending not in (ENDING_NONE, ENDING_SEGMENT))


def fronts_of(path: str) -> Tuple[bytes, bytes]:
    """Returns the parts of a side file that say what it belongs to; nothing, if it can't be read."""
    try:
        side = open_regular(path)
    except OSError:
        return b"", b""
    try:
        return read_at(side, 0, HEAD.size), read_at(side, PROGRESS_AT, PROGRESS.size)
    finally:
        os.close(side)


class Traces:
    """The traces of processes, each in the order of its segments."""

    def __init__(self) -> None:
        self.processes: List[Dict[int, str]] = []  # the paths, by the numbers of the segments
        self.by_key: Dict[Key, List[Dict[int, str]]] = {}
        self.taken: Set[str] = set()
        self.names: Dict[str, Dict[Family, List[str]]] = {}  # the files in folders

    def add(self, path: str) -> None:
        """Takes in a trace, and those of the same process that lie beside it."""
        if os.path.realpath(path) in self.taken:
            return
        if not os.path.isfile(path):
            self.processes.append({1: path})
            return
        known = known_of(path)
        process = self.take(path, known)
        if known.has_ended and known.number == 1:
            return
        others = [(beside, known_of(beside)) for beside in self.beside(path)
                  if os.path.realpath(beside) not in self.taken]
        for beside, other in others:
            if other.key == known.key:
                self.take(beside, other)
        for beside, other in others:
            if not other.has_side and other.key != known.key:
                self.take_begun(beside, other.number, process)

    def take_begun(self, path: str, number: int, process: Dict[int, str]) -> None:
        """Takes in the next segment of a process that was killed before it could say more of it than its name."""
        before = process.get(number - 1)
        if before is not None and number not in process and not known_of(before).has_ended:
            self.taken.add(os.path.realpath(path))
            process[number] = path

    def take(self, path: str, known: Known) -> Dict[int, str]:
        """Takes in a trace, and returns those of its process."""
        self.taken.add(os.path.realpath(path))
        alike = self.by_key.setdefault(known.key, [])
        process = next((it for it in alike if known.number not in it), None)
        if process is None:
            process = {}
            alike.append(process)
            self.processes.append(process)
        process[known.number] = path
        return process

    def beside(self, path: str) -> List[str]:
        """Returns the files whose names are those of segments of the same process."""
        folder, name = os.path.split(path)
        if folder not in self.names:
            self.names[folder] = names_in(folder or ".")
        return [os.path.join(folder, each) for each in self.names[folder].get(apart(name)[0], [])]


def processes_in(paths: List[str]) -> List[List[Segment]]:
    """Returns the traces of each process, in the order in which they were named first. A name given twice counts
    once."""
    traces = Traces()
    for path in paths:
        traces.add(path)
    return [[Segment(path, number) for number, path in sorted(process.items())] for process in traces.processes]


def number_in(trace: str) -> int:
    """Returns the number of the process that the name of a trace has, or 0."""
    return int((re.findall(r"[0-9]{1,9}", os.path.basename(trace)) or ["0"])[-1])


def identity_of(segments: List[Segment]) -> str:
    """Returns what traces are known by: checked twice, they are one run. OSError, if one of them is not there."""
    words = [os.uname().nodename]
    for segment in segments:
        status = os.stat(segment.path)
        words += [os.path.realpath(segment.path), str(status.st_size), str(status.st_mtime_ns)]
    return hashlib.sha256("\0".join(words).encode("utf-8", "surrogateescape")).hexdigest()[:32]


def look_at_sides(segments: List[Segment], notes: Dict[str, None]) -> None:
    """Notes which traces have no side file, or one that says nothing."""
    for segment in segments:
        path = segment.path + ".where"
        try:
            with open(open_regular(path), "rb") as side:
                why = trouble_of(side.read(MAPS_AT))
        except OSError as error:
            why = f": {reason(error)}: record with ASANCOL_WHERE=1 to see where each event was"
        if why:
            notes[path + why] = None
