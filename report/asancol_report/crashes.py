"""A crash: where processes were when a signal that stands for a mistake ended them. It has a place as a finding has."""

from __future__ import annotations

import signal
from typing import Dict, Optional

from .findings import Finding, Frame, own_frames, Stack, SYSTEM_LIBRARY
from .stacks import RECORDER
from .words import signal_name

# Signals that a process raises itself, by a mistake, and what AddressSanitizer calls it.
CRASHES: Dict[int, str] = {
    signal.SIGSEGV: "SEGV", signal.SIGBUS: "BUS", signal.SIGILL: "ILL", signal.SIGFPE: "FPE", signal.SIGABRT: "ABRT",
    signal.SIGSYS: "SYS", signal.SIGTRAP: "TRAP",
}
STACK_OVERFLOW = "stack-overflow"
CRASH_CLASSES = {
    "SEGV": "Access to an address that is unmapped or protected",
    "BUS": "Access to mapped memory without backing, such as past the end of a mapped file",
    "ILL": "Instruction that the processor does not have, such as one for unreachable code",
    "FPE": "Arithmetic error, such as an integer division by zero",
    "ABRT": "The program aborted, such as by a failed assertion",
    "SYS": "System call that a filter forbids",
    "TRAP": "Breakpoint without a debugger, such as for unreachable code on ARM",
    STACK_OVERFLOW: "Stack exhausted, such as by endless recursion",
}
NO_PLACE = "its place was not recorded"
# Why one does not count.
AWAITED = "its parent has waited for it, and the command ended with status 0"


class Crash(Finding):
    """Crashes of one or more runs at one place. What differs from one to the other is that of the first one."""

    __slots__ = ("signal", "end", "program", "reports")

    def __init__(self, class_name: str, number: int, address: Optional[int], end: str, program: str,
                 stack: Stack) -> None:
        super().__init__(class_name, "", None, address or 0, None)
        self.raw_class = CRASHES[number]
        self.signal = number
        self.end = end
        self.program = program
        self.reports = 0  # of the first process, before it crashed
        self.stack = stack or (Frame(module=program, note=NO_PLACE),)

    @property
    def own_stack(self) -> Stack:
        return own_calls(self.stack)

    @property
    def what(self) -> str:
        return self.end

    @property
    def where(self) -> str:
        return "after a report of the same process" if self.is_consequence else ""

    @property
    def is_consequence(self) -> bool:
        return self.reports > 0


def end_text(number: int, crash: str, address: Optional[int], access: str) -> str:
    """Returns which signal has ended a process, and how that came."""
    ended = f"ended by {signal_name(number)}"
    if crash == STACK_OVERFLOW:
        return f"{ended}, since its stack is used up"
    if address is None:
        return ended
    how = f"by a {access} " if access else ""
    return f"{ended}, {how}{'to' if access == 'jump' else 'at'} address 0x{address:x}"


def own_calls(stack: Stack) -> Stack:
    """Returns the frames that stand for a crash: as for an access, but none of a library of the system, if a later one
    has a line, and none of the recorder, if there is a later one."""
    others = [at for at, frame in enumerate(stack) if not RECORDER.search(frame.file)]
    with_line = [at for at in others if (stack[at].line or stack[at].is_bare)
                 and not SYSTEM_LIBRARY.match(stack[at].module)]
    return own_frames(stack[next(iter([*with_line, *others]), 0):])


def line_of_crash(stack: Stack) -> int:
    return next((frame.line for frame in own_calls(stack)), 0)
