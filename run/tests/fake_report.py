#!/usr/bin/env python3
"""Stands for asancol-report: writes what asancol-run sends to it into the file of FAKE_PACKETS, as JSON lines.

FAKE says what it does: a status to end with; `dies`, at once; `hangs-up`: ends with 0 and reads nothing; `stays`: reads
nothing and does not end; `killed`: by SIGKILL, after the first packet. Without it the status is 1 if there is a report,
3 if a process was incomplete, and else 0. Each line of FAKE_PACKETS has the arguments of the command line, or a packet
and in it what came with it. A process that waits for a report is answered with nothing, and no line.
"""

import array
import json
import os
import signal
import socket
import sys
import time
from typing import Any, Dict, List, Tuple


def receive(peer: socket.socket) -> Tuple[bytes, List[int]]:
    """Returns the next packet and the descriptors that came with it."""
    descriptors = array.array("i")
    packet, control, _, _ = peer.recvmsg(65536, socket.CMSG_SPACE(4 * descriptors.itemsize))
    for level, kind, piece in control:
        if level == socket.SOL_SOCKET and kind == socket.SCM_RIGHTS:
            descriptors.frombytes(piece[: len(piece) - len(piece) % descriptors.itemsize])
    return packet, list(descriptors)


def add_descriptors(message: Dict[str, Any], descriptors: List[int]) -> None:
    """Puts the verdicts and the front of the side memory into the message."""
    if not descriptors:
        return
    with os.fdopen(descriptors[0], "rb") as verdicts:
        message["verdicts"] = verdicts.read().decode().splitlines()
    if len(descriptors) > 1:
        message["side"] = os.pread(descriptors[1], 4, 0).decode()
        os.close(descriptors[1])


def leave_result(argv: List[str]) -> None:
    """Makes the file of each --json, without a line: a run round this one looks for its own."""
    for option, path in zip(argv, argv[1:]):
        if option == "--json":
            with open(path, "w", encoding="utf-8"):
                pass


def main() -> int:
    way = os.environ.get("FAKE", "")
    status = 0
    if way == "dies":
        return 77
    if way == "hangs-up":
        return 0
    if way == "stays":
        time.sleep(600)
    peer = socket.socket(fileno=0)
    with open(os.environ.get("FAKE_PACKETS", os.devnull), "w", encoding="utf-8") as lines:
        print(json.dumps(sys.argv[1:]), file=lines)
        while True:
            packet, descriptors = receive(peer)
            if not packet:
                break
            message = json.loads(packet)
            if message["type"] == "show":
                for each in descriptors:
                    os.close(each)
                continue
            add_descriptors(message, descriptors)
            print(json.dumps(message), file=lines, flush=True)
            if way == "killed":
                os.kill(os.getpid(), signal.SIGKILL)
            if message.get("reports"):
                status = 1
            elif message["type"] == "process" and not message["whole"]:
                status = status or 3
    leave_result(sys.argv)
    print("the report")
    return int(way or status)


if __name__ == "__main__":
    sys.exit(main())
