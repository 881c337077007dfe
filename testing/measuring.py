"""What a command takes.

A process's greatest memory counts from before it became its program: of a small one that Python has
started, it is Python's. So commands run under GNU time, which has a megabyte.
"""

import os
import shutil
import subprocess
import tempfile
import time
from typing import Any, NamedTuple, Sequence

from .expectations import Failure


class Used(NamedTuple):
    """What a command took, with all that it waited for."""

    status: int  # 128 and the signal if that ended it
    processor: float  # seconds, user and system
    wall: float  # seconds
    memory: int  # bytes that one process had resident at most


def measure(argv: Sequence[str], **options: Any) -> Used:
    """Runs a command, with options of Popen. A millisecond of its processor time is GNU time's."""
    tool = shutil.which("time")
    if tool is None:
        raise Failure("memory is measured by GNU time, and there is no `time`: it is in Debian's package of that name")
    with tempfile.NamedTemporaryFile("r", prefix="asancol-used-") as said:
        began = time.monotonic()
        child = subprocess.Popen([tool, "--quiet", "-f", "%M", "-o", said.name, *argv], **options)
        _, status, used = os.wait4(child.pid, 0)
        wall = time.monotonic() - began
        child.returncode = os.waitstatus_to_exitcode(status)
        return Used(child.returncode, used.ru_utime + used.ru_stime, wall, int(said.read()) << 10)
