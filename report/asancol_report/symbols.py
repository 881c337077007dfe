"""Functions and lines of addresses, from llvm-symbolizer or addr2line.

The tool is run once for each module, with all addresses that are wanted of it, and for several modules at once. What
goes in and what comes out are files in memory, so neither side waits for the other.
"""

from __future__ import annotations

import json
import os
import re
import select
from contextlib import suppress
from typing import Dict, Iterator, List, Optional, Tuple

from .modules import Module, Modules, Name
from .running import in_memory, start, wait
from .words import tidy

LLVM = "llvm-symbolizer"
NEWEST_LLVM, OLDEST_LLVM = 40, 11
# Tools that run at once.
MAX_TOOLS = 4
# Seconds that one may take. Programs of gigabytes take many.
PATIENCE = 300
# A name or a file from the tool is cut here.
MAX_WORD_LENGTH = 4096
# What compilers add to the name of a copy of a function, as in `f.constprop.0` and `f(int) [clone .cold]`.
CLONE = re.compile(r"(?: \[clone [^]]*\]| \(\.[^)]*\)|\.(?:constprop|isra|part|cold|lto_priv|llvm)(?:\.\d+)*)+\Z")
# What gfortran makes of names: of a module's procedure, one inside another one, and any other.
FORTRAN_FILE = re.compile(r"\.(?:f|for|ftn|fpp|f\d\d)\Z", re.IGNORECASE)
OF_MODULE = re.compile(r"\A__(\w+?)_MOD_(\w+)\Z")
NUMBER = re.compile(r"\.\d+\Z")
FORTRAN_MAIN = "MAIN__"


def on_path(name: str) -> Optional[str]:
    """Returns where a program is: by its path, or by its name in a folder of PATH."""
    folders = [""] if "/" in name else os.environ.get("PATH", "/usr/bin:/bin").split(":")
    for folder in folders:
        path = os.path.join(folder, name)
        if os.access(path, os.X_OK) and not os.path.isdir(path):
            return path
    return None


def find_tool() -> Tuple[Optional[str], str]:
    """Returns the path of a symbolizer, or none and the missing tool."""
    named = os.environ.get("ASANCOL_SYMBOLIZER")
    if named:
        return on_path(named), f"{named}, which ASANCOL_SYMBOLIZER names, was not found"
    versions = [f"{LLVM}-{version}" for version in range(NEWEST_LLVM, OLDEST_LLVM - 1, -1)]
    for name in [os.environ.get("ASAN_SYMBOLIZER_PATH") or LLVM, LLVM, *versions, "addr2line"]:
        path = on_path(name)
        if path:
            return path, ""
    return None, "neither llvm-symbolizer nor addr2line was found"


def is_llvm(tool: str) -> bool:
    return LLVM in os.path.basename(tool)


def as_written(function: str, file: str) -> str:
    """Returns the name of a function as its source has it, as far as the symbolizer has not made it so."""
    name = CLONE.sub("", function)
    if FORTRAN_FILE.search(file) is None or name == FORTRAN_MAIN:
        return name
    of_module = OF_MODULE.match(name)
    return f"{of_module[1]}::{of_module[2]}" if of_module else NUMBER.sub("", name).removesuffix("_")


def name_of(function: object, file: object, line: object, column: object) -> Name:
    """Returns a name from a tool's answer. Missing parts are empty or 0."""
    source = file if isinstance(file, str) else ""
    return Name(
        as_written(function[:MAX_WORD_LENGTH], source) if isinstance(function, str) and function != "??" else "",
        tidy(file[:MAX_WORD_LENGTH]) if isinstance(file, str) and file != "??" else "",
        line if isinstance(line, int) and line > 0 else 0,
        column if isinstance(column, int) and column > 0 else 0,
    )


def of_json(text: str) -> Dict[int, List[Name]]:
    """Reads what llvm-symbolizer answers with --output-style=JSON: a line for each address."""
    found: Dict[int, List[Name]] = {}
    for line in text.splitlines():
        try:
            answer = json.loads(line)
            symbols = answer.get("Symbol") or []
            names = [name_of(it.get("FunctionName"), it.get("FileName"), it.get("Line"), it.get("Column"))
                     for it in symbols]
            found[int(answer["Address"], 16)] = [name for name in names if name.function or name.file]
        except (ValueError, TypeError, KeyError, AttributeError):
            continue
    return found


def of_lines(text: str) -> Dict[int, List[Name]]:
    """Reads what addr2line -afiC answers, and llvm-symbolizer with --output-style=GNU: an address, then two lines for
    each frame."""
    found: Dict[int, List[Name]] = {}
    names: List[Name] = []
    lines = iter(text.splitlines())
    for line in lines:
        if line.startswith("0x"):
            try:
                names = found[int(line.rstrip(":"), 16)] = []
            except ValueError:
                names = []
            continue
        place = next(lines, "??:0").split(" (discriminator")[0]
        words = place.rsplit(":", 2)
        numbers = [int(word) for word in words[1:] if word.isascii() and word.isdigit()]
        file = ":".join(words[: len(words) - len(numbers)])
        if place.endswith(":?"):
            file = place[:-2]
        name = name_of(line, file, numbers[0] if numbers else 0, numbers[1] if len(numbers) > 1 else 0)
        if name.function or name.file:
            names.append(name)
    return found


class Job:
    """One run of the tool, for the addresses that are wanted of one module."""

    def __init__(self, tool: str, style: str, module: Module) -> None:
        self.module = module
        self.style = style
        path = module.readable_path()
        if is_llvm(tool):
            words = [tool, "--obj=" + path, "--inlining", "--demangle", "--functions=linkage", "--addresses",
                     "--output-style=" + style]
        else:
            words = [tool, "-afiC", "-e", path]
        self.answer = in_memory()
        with in_memory("".join(f"0x{address:x}\n" for address in module.wanted).encode()) as wanted:
            self.child = start(words, wanted.fileno(), self.answer.fileno(), module.descriptor, is_silent=True)

    def finish(self) -> Dict[int, List[Name]]:
        wait(self.child, PATIENCE)
        self.answer.seek(0)
        with self.answer:
            text = self.answer.read().decode("utf-8", "surrogateescape")
        return of_json(text) if self.style == "JSON" else of_lines(text)


class Resident:
    """An llvm-symbolizer that stays, and knows what it has read: for one report after another. It reads files that this
    process holds for it, each for as long as it is there."""

    MAX_FILES = 64
    # Addresses of a request, which a pipe has room for.
    MAX_AT_ONCE = 64
    # Seconds that an answer may take.
    PATIENCE = 60

    def __init__(self, tool: str) -> None:
        self.files: Dict[Tuple[str, Tuple[int, int], int], int] = {}
        (theirs, self.requests), (self.answers, ours) = os.pipe(), os.pipe()
        words = [tool, "--inlining", "--demangle", "--functions=linkage", "--output-style=JSON"]
        try:
            self.child = start(words, theirs, ours, is_silent=True)
        finally:
            os.close(theirs)
            os.close(ours)

    def file_of(self, module: Module) -> str:
        """Returns a path of the module's file that stands for no other one; none, if there are too many."""
        key = (module.path, module.identity, module.changed_at)
        if key not in self.files:
            if len(self.files) == self.MAX_FILES:
                return ""
            self.files[key] = os.dup(module.descriptor)
        return f"/proc/{os.getpid()}/fd/{self.files[key]}"

    def ask(self, module: Module) -> Optional[Dict[int, List[Name]]]:
        """Looks up the wanted addresses of a module. None, if that failed."""
        path, wanted = self.file_of(module), list(module.wanted)
        if not path:
            return None
        found: Dict[int, List[Name]] = {}
        for first in range(0, len(wanted), self.MAX_AT_ONCE):
            some = wanted[first:first + self.MAX_AT_ONCE]
            try:
                os.write(self.requests, "".join(f'CODE "{path}" 0x{address:x}\n' for address in some).encode())
                found.update(of_json(self.read_lines(len(some))))
            except OSError:
                return None
        return found

    def read_lines(self, count: int) -> str:
        """Reads this number of lines that are not empty. OSError, if they do not come."""
        text = b""
        poll = select.poll()
        poll.register(self.answers, select.POLLIN)
        while sum(map(bool, text.split(b"\n")[:-1])) < count:
            piece = os.read(self.answers, 1 << 16) if poll.poll(self.PATIENCE * 1000) else b""
            if not piece:
                raise OSError
            text += piece
        return text.decode("utf-8", "surrogateescape")

    def close(self) -> None:
        os.close(self.requests)
        os.close(self.answers)
        for descriptor in self.files.values():
            os.close(descriptor)
        wait(self.child, 1)


class Symbols:
    """Looks up the places that modules want."""

    def __init__(self, modules: Modules) -> None:
        self.modules = modules
        self.tool, self.missing = find_tool()
        self.style = "JSON" if self.tool and is_llvm(self.tool) else "GNU"
        self.notes: Dict[str, None] = {}
        self.has_answer = False
        self.was_asked = False
        self.resident: Optional[Resident] = None
        self.can_stay = self.style == "JSON"

    def stay(self) -> None:
        """Keeps a symbolizer from now on, if it is one that can stay."""
        if self.resident is None and self.tool and self.can_stay:
            with suppress(OSError):
                self.resident = Resident(self.tool)

    def end_stay(self) -> None:
        if self.resident is not None:
            self.resident.close()
        self.resident, self.can_stay = None, False

    def ask_resident(self, wanted: List[Module]) -> None:
        """Looks up the addresses that the resident one knows, and leaves the rest."""
        for module in filter(Module.is_same_still, wanted):
            names = self.resident.ask(module) if self.resident else None
            if names is None:
                self.end_stay()
                return
            if not any(names.values()):
                continue
            for address in module.wanted:
                module.names[address] = names.get(address, [])
            self.was_asked = self.has_answer = True
            module.wanted.clear()

    def look_up(self) -> None:
        """Looks up all that is wanted, and lets the modules go."""
        if self.resident is not None:
            self.ask_resident(self.modules.wanted())
        wanted = self.modules.wanted()
        if wanted and self.tool is None:
            self.notes[f"{self.missing}: places have no lines"] = None
        elif wanted:
            found = self.ask(wanted)
            if not found and self.style == "JSON":
                # Before LLVM 13 there was no JSON.
                self.style = "GNU"
                found = self.ask(wanted)
                self.style = "GNU" if found else "JSON"
            self.was_asked = True
            self.has_answer = self.has_answer or found
        for module in wanted:
            module.wanted.clear()
        self.modules.let_go()

    def ask(self, wanted: List[Module]) -> bool:
        """Runs the tool on each module. Whether it has answered anything."""
        found = False
        for jobs in self.batches(wanted):
            for job in jobs:
                names = job.finish()
                for address in job.module.wanted:
                    job.module.names[address] = names.get(address, [])
                    found = found or bool(job.module.names[address])
        return found

    def batches(self, wanted: List[Module]) -> Iterator[List[Job]]:
        """Starts the tool for some modules at once. A module whose file has changed in place is left out."""
        for first in range(0, len(wanted), MAX_TOOLS):
            jobs = []
            for module in wanted[first:first + MAX_TOOLS]:
                if not module.is_same_still():
                    module.set_changed()
                    continue
                try:
                    jobs.append(Job(self.tool or "", self.style, module))
                except OSError as error:
                    self.notes[f"{self.tool} can't be run: {error.strerror}: places have no lines"] = None
            yield jobs

    def troubles(self) -> List[str]:
        """Returns a line for each thing that has cost lines, said once."""
        notes = list(self.notes)
        if self.was_asked and not self.has_answer and not notes:
            notes.append(f"{self.tool} gives no lines: was the program compiled with -g? "
                         "(ASANCOL_SYMBOLIZER names another)")
        elif not notes:
            notes += [f"{path} has no lines: compile it with -g, and do not strip it"
                      for path in self.modules.without_lines()]
        return self.modules.troubles() + notes
