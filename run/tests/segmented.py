#!/usr/bin/env python3
"""Speaks to a hub as a recorded process does whose recording goes on in further segments.

usage: segmented.py [--files] WORD..

Each word is a segment, in the order in which they are sent: its number, from 1, and letters. With `b` it has two bad
stores. With `e` the process ends in it, and else it goes on in the next one. With `o` it has no close, with `l` an
event was left out, with `h` its connection stays until the end, with `t` its side memory says only later how it ended,
with `r` freed memory came again after as many MB as its number, and with `k` SIGKILL ends the process there. The word
`exec` begins another program in the same process, `empty` is a connection on which nothing is sent, and `wait` waits
until a signal comes. With --files the traces are left in the folder of the hub, as by a process that can't connect.

A segment has a malloc, which the snapshots of all but the first one have, and ten loads.
"""

import array
import fcntl
import os
import signal
import socket
import struct
import sys
import time
from typing import List

sys.path.insert(0, f"{os.path.dirname(os.path.realpath(__file__))}/../..")  # where `testing` is

from testing import side

BLOCK, SIZE = 0x100000001000, 8
LOADS = 10
EXIT, SEGMENT = 1, 5  # endings
ENDING_AT, LATE = 24, 0.4
F_ADD_SEALS, F_SEAL_SHRINK = 1033, 2


def records(word: str) -> bytes:
    text = b"ASTR\2\0\0\0" + struct.pack("<BQQ", 3, BLOCK, SIZE)
    bad = struct.pack("<BBQ", 2, 1, BLOCK + SIZE) * 2 if "b" in word else b""
    text += struct.pack("<BBQ", 1, 1, BLOCK) * LOADS + bad
    return text + (b"" if "o" in word or "k" in word else b"\7")


def ending_of(word: str) -> int:
    return EXIT if "e" in word else SEGMENT


def side_of(word: str, number: int, started: int) -> side.Parts:
    ending = 0 if "k" in word or "t" in word else ending_of(word)
    return side.side(process=os.getpid(), started=started, ending=ending, segment=number, stated=int(number > 1),
                      events=1 + LOADS, left_out=int("l" in word), is_at_limit="l" in word, needed=1,
                      used_again=number * 1000000 if "r" in word else 0, argv=["./segmented", *sys.argv[1:]])


def connect() -> socket.socket:
    peer = socket.socket(socket.AF_UNIX)
    peer.connect(os.environ["ASANCOL_HUB"])
    return peer


def send_all(peer: socket.socket, parts: side.Parts, text: bytes) -> int:
    """Sends side memory and a stream, and answers the memory."""
    memory = side.fill(os.memfd_create("side", os.MFD_ALLOW_SEALING), parts)
    fcntl.fcntl(memory, F_ADD_SEALS, F_SEAL_SHRINK)
    peer.sendmsg([text[:8]], [(socket.SOL_SOCKET, socket.SCM_RIGHTS, array.array("i", [memory]))])
    peer.sendall(text[8:])
    return memory


def send(word: str, number: int, started: int) -> socket.socket:
    """Sends a segment over a new connection."""
    peer = connect()
    memory = send_all(peer, side_of(word, number, started), records(word))
    if "t" in word:
        peer.shutdown(socket.SHUT_WR)
        time.sleep(LATE)
        os.pwrite(memory, struct.pack("<I", ending_of(word)), ENDING_AT)
    os.close(memory)
    return peer


def leave(word: str, number: int, started: int) -> None:
    """Leaves a segment in a file."""
    end = f".segment-{number:03}" if number > 1 else ""
    path = f"{os.path.dirname(os.environ['ASANCOL_HUB'])}/{os.getpid()}{end}.trace"
    side.write_side(path + ".where", side_of(word, number, started))
    with open(path, "wb") as file:
        file.write(records(word))


def main(argv: List[str]) -> None:
    held: List[socket.socket] = []
    started = time.time_ns()
    for word in argv:
        number = int("".join(it for it in word if it.isdigit()) or 0)
        if word == "exec":
            started = time.time_ns()
        elif word == "empty":
            connect().close()
        elif word == "wait":
            print("ready", flush=True)
            signal.pause()
        elif argv[0] == "--files":
            if number:
                leave(word, number, started)
        else:
            peer = send(word, number, started)
            if "k" in word:
                os.kill(os.getpid(), signal.SIGKILL)  # the system closes the connection, once there is no memory
            if "h" in word:
                held.append(peer)
            else:
                peer.close()


if __name__ == "__main__":
    main(sys.argv[1:])
