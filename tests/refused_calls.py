"""Runs a program some of whose system calls fail, for runs.py.

The program's first thread is traced (ptrace(2)). Its calls of one kind are counted, and those that
are chosen fail, as they do where the system can't carry them out. All else is as without.
"""

import ctypes
import errno
import os
import signal
import subprocess
import threading
from typing import Callable, List, NamedTuple, Tuple

# Of sys/ptrace.h, and where a process's registers lie, on x86-64.
TRACEME, PEEK, POKE, TO_NEXT_CALL, SET_OPTIONS = 0, 3, 6, 24, 0x4200
MARKS_CALLS, KILLS_AT_EXIT = 1, 1 << 20
RESULT, CALL = 8 * 10, 8 * 15
NO_CALL = -1

CALL_STOP = signal.SIGTRAP | 0x80

_libc = ctypes.CDLL(None, use_errno=True)
_libc.ptrace.restype = ctypes.c_long
_libc.ptrace.argtypes = [ctypes.c_long, ctypes.c_long, ctypes.c_void_p, ctypes.c_void_p]


def ptrace(request: int, process: int, at: int = 0, value: int = 0) -> int:
    ctypes.set_errno(0)
    answer: int = _libc.ptrace(request, process, at, value)
    if ctypes.get_errno():
        raise OSError(ctypes.get_errno(), f"ptrace: {os.strerror(ctypes.get_errno())}")
    return answer


class Calls(NamedTuple):
    """Calls of one kind: their numbers on x86-64, and the error of one that fails."""

    numbers: Tuple[int, int]
    error: int


# clone and clone3, accept and accept4, and write and writev.
THREAD_STARTS = Calls((56, 435), errno.EAGAIN)
ACCEPTS = Calls((43, 288), errno.ECONNABORTED)
WRITES = Calls((1, 20), errno.ENOSPC)


class Ran(NamedTuple):
    """What a program wrote, how it ended, and how many calls of the kind it tried."""

    status: int
    output: bytes
    faults: bytes
    calls: int


def follow(process: int, calls: Calls, refuses: Callable[[int], bool]) -> Tuple[int, int]:
    """Follows a program up to its end. Returns how it ended, and the number of these calls."""
    os.waitpid(process, 0)
    ptrace(SET_OPTIONS, process, 0, MARKS_CALLS | KILLS_AT_EXIT)
    count, is_inside, is_refused, passed_on = 0, False, False, 0
    while True:
        ptrace(TO_NEXT_CALL, process, 0, passed_on)
        _, status = os.waitpid(process, 0)
        if not os.WIFSTOPPED(status):
            return os.waitstatus_to_exitcode(status), count
        passed_on = os.WSTOPSIG(status)
        if passed_on != CALL_STOP:
            continue
        passed_on, is_inside = 0, not is_inside
        if is_inside and ptrace(PEEK, process, CALL) in calls.numbers:
            count += 1
            is_refused = refuses(count)
            if is_refused:
                ptrace(POKE, process, CALL, NO_CALL)
        elif is_refused and not is_inside:
            ptrace(POKE, process, RESULT, -calls.error)
            is_refused = False


def run(
    argv: List[str],
    calls: Calls,
    refuses: Callable[[int], bool],
    prepare: Callable[[], None],
    patience: int,
) -> Ran:
    """Runs a program, where each of these calls fails whose number `refuses` chooses: they are
    counted from 1. `prepare` is called in its process just before. It is killed after `patience`
    seconds. What it writes has to fit into a pipe."""

    def begin() -> None:
        prepare()
        ptrace(TRACEME, 0)

    with subprocess.Popen(
        argv,
        preexec_fn=begin,
        stdin=subprocess.DEVNULL,
        stdout=subprocess.PIPE,
        stderr=subprocess.PIPE,
    ) as program:
        clock = threading.Timer(patience, program.kill)
        clock.start()
        program.returncode, count = follow(program.pid, calls, refuses)
        clock.cancel()
        output, faults = program.communicate()
        return Ran(program.returncode, output, faults, count)
