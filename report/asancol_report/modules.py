"""The files of a program: whether they are still what ran.

A file is opened when the first place in it comes up, and held until its symbols were read. If it is gone by then, or is
another one, the descriptor serves that the process has sent. So a program that a test builds, runs and removes has its
lines.
"""

from __future__ import annotations

import os
from typing import Callable, Dict, List, NamedTuple, Optional, Tuple

from .elf import AARCH64, Elf
from .reading import is_regular, open_regular, read_at
from .running import GIVEN
from .side import Mapping

Identity = Tuple[int, int]


# How many bytes a call by a register or memory may have on x86-64, without its prefix.
INDIRECT_CALLS = (2, 3, 4, 6, 7)
# Calls of aarch64: to a distance, by a register, and by one whose signature is checked.
ARM_CALLS = ((0xfc000000, 0x94000000), (0xfffffc1f, 0xd63f0000), (0xfefff800, 0xd63f0800))


def is_call(code: bytes) -> bool:
    """Whether the last bytes of code are a call on x86-64: e8 and a distance, or ff /2."""
    if code[-5:-4] == b"\xe8":
        return True
    return any(code[-n:-n + 1] == b"\xff" and code[-n + 1] >> 3 & 7 == 2 for n in INDIRECT_CALLS if n <= len(code))


def is_arm_call(code: bytes) -> bool:
    """Whether the last bytes of code are a call on aarch64."""
    word = int.from_bytes(code[-4:], "little")
    return any(word & mask == call for mask, call in ARM_CALLS)


class Processor(NamedTuple):
    """How code of a processor calls, and how a signal handler returns."""

    is_call: Callable[[bytes], bool]
    max_call_length: int
    return_from_handler: bytes


# mov $15, %rax; syscall. mov x8, #139; svc #0.
X86_64 = Processor(is_call, 7, b"\x48\xc7\xc0\x0f\0\0\0\x0f\x05")
PROCESSORS = {AARCH64: Processor(is_arm_call, 4, b"\x68\x11\x80\xd2\x01\0\0\xd4")}


class Name(NamedTuple):
    """A function, and a line of it."""

    function: str
    file: str
    line: int
    column: int


class Module:
    """A program or a shared object, as one or more processes ran it."""

    def __init__(self, path: str, build: str) -> None:
        self.path = path
        self.build = build
        self.trouble = ""  # why it has no lines
        self.descriptor = -1
        self.is_given = False  # it is not by the path that it was opened
        self.identity: Identity = (0, 0)
        self.changed_at = 0
        self.built = 0  # when its bytes were last changed, in nanoseconds
        self.elf: Optional[Elf] = None
        self.wanted: Dict[int, None] = {}  # addresses, in the order in which they came
        self.calls: Dict[int, bool] = {}  # by the offset of a call's last byte in the file, whether it is one
        self.names: Dict[int, List[Name]] = {}  # of each address that was looked up; inner ones first

    def open(self) -> None:
        """Opens the file, if it is the one that ran. Else `trouble` says why not."""
        try:
            self.hold(open_regular(self.path), False)
        except FileNotFoundError:
            self.trouble = f"{self.path} is not there: its places have no lines"
            return
        except (OSError, ValueError) as error:
            self.trouble = f"{self.path} can't be read: its places have no lines ({error})"
            return
        if self.build and self.elf is not None and self.elf.build_id != self.build:
            self.set_changed()

    def hold(self, descriptor: int, is_given: bool) -> None:
        self.descriptor, self.is_given, self.trouble = descriptor, is_given, ""
        status = os.fstat(descriptor)
        self.identity = (status.st_dev, status.st_ino)
        self.changed_at = self.time_of(status)
        self.built = status.st_mtime_ns
        self.elf = Elf(descriptor)

    def time_of(self, status: os.stat_result) -> int:
        """Returns the time by which a change is seen: of a file that is removed meanwhile, only that of its bytes."""
        return status.st_mtime_ns if self.is_given else status.st_ctime_ns

    def set_changed(self) -> None:
        self.trouble = f"{self.path} has changed since it ran: its places have no lines"

    def is_after_call(self, in_file: int) -> bool:
        """Whether a call ends with the byte at this offset, or a signal handler returns to the next one. If the file
        can't be read, nobody knows better."""
        if self.descriptor < 0:
            return True
        if in_file not in self.calls:
            by = PROCESSORS.get(self.elf.machine, X86_64) if self.elf else X86_64
            before, after = by.max_call_length, by.return_from_handler
            code = read_at(self.descriptor, max(in_file + 1 - before, 0), before + len(after))
            self.calls[in_file] = by.is_call(code[:before]) or code[before:] == after
        return self.calls[in_file]

    def close(self) -> None:
        if self.descriptor >= 0:
            os.close(self.descriptor)
            self.descriptor = -1

    def is_same_still(self) -> bool:
        """Whether the file that is held still has the bytes that it had when it was opened."""
        if self.descriptor < 0 or self.trouble:
            return False
        if self.build:
            return Elf(self.descriptor).build_id == self.build
        return self.time_of(os.fstat(self.descriptor)) == self.changed_at

    def readable_path(self) -> str:
        """Returns a path by which a program that was given the descriptor can read the file."""
        try:
            status = os.stat(self.path)
            if (status.st_dev, status.st_ino) == self.identity:
                return self.path
        except OSError:
            pass
        return f"/proc/self/fd/{GIVEN}"


class CodeAddress(NamedTuple):
    """An address in the code of a process: in a module, or as it was if it lies in none."""

    module: Optional[Module]
    in_file: int  # the offset in the module's file, or the address
    offset: int  # from where the module was linked for, or the address


class Modules:
    """All modules that have places in a report."""

    # No more files than this are held at once, and no more that were given.
    MAX_HELD = 64
    MAX_GIVEN = 256

    def __init__(self) -> None:
        self.by_key: Dict[Tuple[str, str, Tuple[int, int]], Module] = {}
        self.held = 0
        # Descriptors that processes have sent, by the build id of the file, or by its inode if it has none. The last
        # one to be given is the last here.
        self.given: Dict[Tuple[str, int], int] = {}

    def give(self, descriptor: int) -> None:
        """Takes a copy of a descriptor that may be of use."""
        if not is_regular(descriptor):
            return
        build = Elf(descriptor).build_id
        key = build, 0 if build else os.fstat(descriptor).st_ino
        before = self.given.pop(key, None)
        self.given[key] = os.dup(descriptor) if before is None else before
        while len(self.given) > self.MAX_GIVEN:
            os.close(self.given.pop(next(iter(self.given))))

    def given_for(self, mapping: Mapping, started: int) -> Tuple[int, int]:
        """Returns the descriptor that was given of a module, or -1, and when its bytes were last changed."""
        found = self.given.get((mapping.build, 0 if mapping.build else mapping.inode), -1)
        changed = os.fstat(found).st_mtime_ns if found >= 0 else 0
        return (found, changed) if mapping.build or changed <= started else (-1, 0)

    def find(self, mapping: Mapping, started: int) -> Module:
        """Returns the module of a mapping, in a process that began at a time in nanoseconds."""
        fits = bool(mapping.build) or self.is_of_time(mapping, started)
        given, changed = self.given_for(mapping, started)
        # Of one path there may be several files without a build id, one after the other.
        which = (mapping.inode, changed) if given >= 0 and not mapping.build else (int(fits), 0)
        key = (mapping.path, mapping.build, which)
        module = self.by_key.get(key)
        if module is None:
            module = self.by_key[key] = Module(mapping.path, mapping.build)
        if module.descriptor < 0 and (not module.trouble or given >= 0):
            self.hold(module, fits, given)
        return module

    def hold(self, module: Module, fits: bool, given: int) -> None:
        module.open()
        if not fits and not module.trouble:
            module.set_changed()
        if module.trouble:
            module.close()
        if module.trouble and given >= 0:
            module.hold(os.dup(given), True)
        if not module.trouble:
            self.held += 1

    @staticmethod
    def is_of_time(mapping: Mapping, started: int) -> bool:
        """Whether a file without a build id was there, and unchanged since, when the process began. An inode's number
        comes again at once on some file systems, so the time has to fit too."""
        try:
            status = os.stat(mapping.path)
        except (OSError, ValueError):
            return True  # that it is not there is said elsewhere
        return status.st_ino == mapping.inode and status.st_ctime_ns <= started

    def is_full(self) -> bool:
        return self.held >= self.MAX_HELD

    def wanted(self) -> List[Module]:
        """Returns the modules that have addresses to look up."""
        return [module for module in self.by_key.values() if module.wanted]

    def let_go(self) -> None:
        """Closes all files. Those that are wanted again are opened again."""
        for module in self.by_key.values():
            module.close()
        self.held = 0

    def troubles(self) -> List[str]:
        return sorted({module.trouble for module in self.by_key.values() if module.trouble})

    def without_lines(self) -> List[str]:
        """Returns the programs and objects of which places were looked up, and none has a line; except the
        system's, and plain programs that have the recorder preloaded."""
        bare = {module.path for module in self.by_key.values() if any(module.names) and not module.trouble
                and not (module.elf and module.elf.is_program and not module.elf.is_linked)
                and not any(name.line for names in module.names.values() for name in names)}
        return sorted(path for path in bare if not path.startswith(("/usr/lib", "/lib")))
