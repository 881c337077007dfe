#!/usr/bin/env python3
"""Speaks to a hub as a recorded process does, and ends.

usage: ended.py [NAME=NUMBER..]

The names are those of side.side: what its side memory says. `close` is 0 if its stream has no close, and `cut` 1 if it
ends within a record; `beside` is 0 if it sends no side memory. `kill` is the signal that ends it, if there is one,
`late` is 1 if its connection ends before that does, and `exec` is 1 if it becomes another program.
It has eleven events, and before them a malloc of as many `blocks` as it says, far from each other.
"""

import os
import struct
import sys
import time
from typing import Any, Dict, List

sys.path.insert(0, f"{os.path.dirname(os.path.realpath(__file__))}/../..")  # where `testing` is

import segmented
from testing import side

USUAL = (("close", 1), ("cut", 0), ("kill", 0), ("late", 0), ("exec", 0), ("blocks", 0), ("beside", 1))
FAR = 1 << 24


def main(argv: List[str]) -> None:
    numbers = {name: int(number) for name, _, number in (word.partition("=") for word in argv)}
    close, cut, kill, is_late, becomes, blocks, beside = (numbers.pop(name, usual) for name, usual in USUAL)
    wanted: Dict[str, Any] = {"events": 11, "needed": 1, **numbers}
    parts = side.side(process=os.getpid(), started=time.time_ns(), argv=["./ended"], **wanted)
    stream = segmented.records("" if close else "o")
    far = [struct.pack("<BQQ", 3, segmented.BLOCK + number * FAR, segmented.SIZE) for number in range(1, blocks + 1)]
    text = stream[:8] + b"".join(far) + stream[8:]
    peer = segmented.connect()
    segmented.send_all(peer, parts if beside else [], text[:len(text) - cut])
    if is_late:
        peer.close()
        time.sleep(0.3)
    if kill:
        os.kill(os.getpid(), kill)
    if becomes:
        os.execlp("sleep", "sleep", "3")


if __name__ == "__main__":
    main(sys.argv[1:])
