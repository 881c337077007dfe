#!/usr/bin/env python3
"""Checks a trace as `asancol` does, by a program that is not proved.

usage: tools/unproved.py < TRACE
       tools/unproved.py --build FILE      leaves the program, and checks nothing

`rt try` compiles the program once, with checks in the place of its proof, and runs it. If nothing
was built before, that takes a minute or two. `make demo` calls this if ./asancol is not there. The built program has
the checks too: an event takes it tens of microseconds.
"""

import os
import re
import shutil
import socket
import struct
import subprocess
import sys
import tempfile
import time
from typing import Dict, List, Tuple

TOP = os.path.dirname(os.path.dirname(os.path.abspath(__file__)))

# What a run printed, and the status that it ended with.
Run = Tuple[str, int]


# What struct ucred has: the process, the user and the group that made a socket.
PEER = struct.Struct("3i")


def need_toolchain() -> None:
    if not shutil.which("rt"):
        sys.exit("this needs the toolchain's command rt on the path, or a built ./asancol")


def by_try(traces: List[bytes]) -> List[Run]:
    """Returns what the program says of each trace, as `rt try` builds it."""
    need_toolchain()
    with tempfile.TemporaryDirectory(prefix="asancol-unproved-") as room:
        for number, trace in enumerate(traces):
            with open(f"{room}/{number}", "wb") as file:
                file.write(trace)
        argv = ["rt", "try", "--cases", room]
        ran = subprocess.run(argv, cwd=f"{TOP}/crates/asancol", text=True, capture_output=True)
    texts: Dict[str, str] = dict(re.findall(r"^== (\d+)\n((?:(?!== ).*\n)*)", ran.stdout, re.M))
    statuses = dict(re.findall(r"^case=(\d+) run=ended status=(\d+)", ran.stderr, re.M))
    if len(statuses) < len(traces):
        sys.exit(f"rt try did not run the program:\n{ran.stdout}{ran.stderr}")
    return [(texts.get(str(it), ""), int(statuses[str(it)])) for it in range(len(traces))]


def connected(path: str, serves: "subprocess.Popen[str]") -> socket.socket:
    """Returns a connection to a socket, once the command serves it."""
    while True:
        peer = socket.socket(socket.AF_UNIX)
        try:
            peer.connect(path)
            return peer
        except OSError:
            peer.close()
        if serves.poll() is not None:
            sys.exit(f"rt try did not run the program:\n{serves.communicate()[0]}")
        time.sleep(0.05)


def build(path: str) -> None:
    """Builds the program by `rt try`. That keeps no file, so what it runs is copied while it waits
    at a socket."""
    need_toolchain()
    with tempfile.TemporaryDirectory(prefix="asancol-unproved-") as room:
        argv = ["rt", "try", "--", "serve", "--count", "1", f"{room}/socket"]
        folder = f"{TOP}/crates/asancol"
        tried = subprocess.Popen(
            argv, cwd=folder, stdout=subprocess.PIPE, stderr=subprocess.STDOUT, text=True
        )
        with connected(f"{room}/socket", tried) as peer:
            made = peer.getsockopt(socket.SOL_SOCKET, socket.SO_PEERCRED, PEER.size)
            with open(f"/proc/{PEER.unpack(made)[0]}/cmdline", "rb") as file:
                run = file.read().split(b"\0")
            # It runs by the toolchain's loader, whose words come first.
            shutil.copy(run[run.index(b"serve") - 1], os.fsencode(path))
        tried.communicate()


def main() -> int:
    if sys.argv[1:2] == ["--build"] and len(sys.argv) == 3:
        build(sys.argv[2])
        return 0
    if len(sys.argv) > 1:
        print((__doc__ or "").split("\n\n")[1], file=sys.stderr)
        return 2
    text, status = by_try([sys.stdin.buffer.read()])[0]
    print(text, end="")
    return status


if __name__ == "__main__":
    sys.exit(main())
