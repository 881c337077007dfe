"""A long trace and its output, for runs.py.

200,000 blocks are allocated and freed, and all are held, since the quarantine is the largest there
is. Blocks of 2^32 bytes fill it up, and the free of the last of them releases most of the small
ones. Then come 100,000 reports.

The output is worked out here by a small model of blocks, which was written from
docs/inside/MODEL.md and docs/FORMAT.md alone. It knows mallocs, frees, loads and stores.
"""

import bisect
import collections
import random
from typing import Deque, Dict, List, NamedTuple, Optional, Tuple

from testing import traces

# The largest quarantine, in bytes, and the largest block.
QUARANTINE = 1 << 40
LARGEST = 1 << 32

SMALL_BLOCKS = 200_000
RELEASED_AT_ONCE = 150_000
REPORTS = 100_000

REDZONE = 32
ADDRESSABLE, HEAP_REDZONE, FREED = 0, 0xFA, 0xFD
CLASSES = {
    ADDRESSABLE: "unknown-crash",
    HEAP_REDZONE: "heap-buffer-overflow",
    FREED: "heap-use-after-free",
}


def round_up(size: int) -> int:
    return (size + 7) // 8 * 8


class Block:
    """A block that was admitted, and what became of it: live, held or released."""

    def __init__(self, at: int, size: int) -> None:
        self.at, self.size, self.state = at, size, "live"
        self.start, self.end = at - REDZONE, at + round_up(size) + REDZONE

    def byte(self, at: int) -> int:
        """Returns what a byte of its span is."""
        if self.state == "live" and self.at <= at < self.at + self.size:
            return ADDRESSABLE
        if self.state == "held" and self.at <= at < self.at + round_up(self.size):
            return FREED
        return HEAP_REDZONE


class Model:
    """The lines of the events so far.

    It keeps each block that was admitted, by its address. No two of them have spans that meet:
    a block that is allocated again has the size that it had."""

    def __init__(self) -> None:
        self.blocks: Dict[int, Block] = {}
        self.addresses: List[int] = []
        self.queue: Deque[Block] = collections.deque()
        self.queued = 0
        self.events = 0
        self.lines: List[str] = []
        self.most_released = 0

    def report(self, fault: str) -> None:
        self.lines.append(f"#{self.events} {fault}\n")

    def malloc(self, at: int, size: int) -> None:
        self.events += 1
        block = Block(at, size)
        place = bisect.bisect(self.addresses, at)
        near = [self.blocks[it] for it in self.addresses[max(place - 1, 0) : place + 1]]
        met = [it for it in near if it.start < block.end and block.start < it.end]
        if at % 8 or at < REDZONE or any(it.state != "released" for it in met):
            self.report(f"malloc {size} at {at:012x} bad-malloc")
            return
        assert [(it.at, it.size) for it in met] in ([], [(at, size)]), "see above"
        if not met:
            self.addresses.insert(place, at)
        self.blocks[at] = block

    def free(self, at: int) -> None:
        self.events += 1
        block = self.blocks.get(at)
        if not block or block.state == "released":
            self.report(f"free at {at:012x} bad-free")
        elif block.state == "held":
            self.report(f"free at {at:012x} double-free")
        else:
            block.state = "held"
            self.queue.append(block)
            self.queued += block.end - block.start
            self.release()

    def release(self) -> None:
        """Releases the oldest blocks until the others have no more bytes than the quarantine."""
        before = len(self.queue)
        while self.queued > QUARANTINE:
            block = self.queue.popleft()
            block.state = "released"
            self.queued -= block.end - block.start
        self.most_released = max(self.most_released, before - len(self.queue))

    def granule(self, at: int) -> List[int]:
        """Returns what the eight bytes of a granule are. A span has whole granules."""
        place = bisect.bisect(self.addresses, at + REDZONE) - 1
        block = self.blocks[self.addresses[place]] if place >= 0 else None
        if not block or at >= block.end:
            return [ADDRESSABLE] * 8
        return [block.byte(it) for it in range(at, at + 8)]

    def access(self, kind: str, width: int, at: int) -> None:
        self.events += 1
        first, own = at // 8 * 8, self.granule(at // 8 * 8)
        bad = [it for it in range(at, min(at + width, first + 8)) if own[it - first]]
        if not bad:
            return
        front = own.index(next(filter(None, own)))
        shadow = front or own[0]
        deciding = self.granule(first + 8)[0] if front else own[0]
        text = f"{kind} {width} at {at:012x} bad {bad[0]:012x}"
        self.report(f"{text} {CLASSES[deciding]} shadow {shadow:02x}")


class Long(NamedTuple):
    """The bytes of the trace, and its output, without the number of its process."""

    trace: bytes
    lines: List[str]

    def text(self, process: int) -> str:
        return "".join(f"p{process} {line}" for line in self.lines)


class Drawn:
    """A trace that is being written, beside the model of it."""

    def __init__(self) -> None:
        self.model = Model()
        self.records: List[bytes] = []
        self.random = random.Random(12)

    def malloc(self, at: int, size: int) -> None:
        self.records.append(traces.malloc(at, size))
        self.model.malloc(at, size)

    def free(self, at: int) -> None:
        self.records.append(traces.free(at))
        self.model.free(at)

    def access(self, kind: str, width: int, at: int) -> None:
        self.records.append({"load": traces.load, "store": traces.store}[kind](width, at))
        self.model.access(kind, width, at)

    def fill_quarantine(self) -> List[Tuple[int, int]]:
        """Allocates all blocks and frees them, the small ones first, in another order. Returns the
        addresses and sizes of the small ones."""
        small, large, at = [], [], 0x10000
        for _ in range(SMALL_BLOCKS):
            small.append((at, self.random.randrange(41)))
            at += round_up(small[-1][1]) + 2 * REDZONE + self.random.choice([0, 0, 8])
        order = self.random.sample(small, len(small))
        stay = sum(round_up(size) + 2 * REDZONE for _, size in order[RELEASED_AT_ONCE:])
        for number in range(1, QUARANTINE // LARGEST):
            large.append((number * 2 * LARGEST, LARGEST))
        # With the last one and the small ones that stay the quarantine is just full.
        spans = len(large) * (LARGEST + 2 * REDZONE) + 2 * REDZONE
        large.append((2 * QUARANTINE, QUARANTINE - spans - stay))
        for block in small + large:
            self.malloc(*block)
        for block in order + large:
            self.free(block[0])
        return small

    def touch(self, at: int, size: int) -> None:
        """Does one thing to a small block, or to the room beside it. Mostly it is bad."""
        drawn = self.random.randrange(10)
        if drawn < 7:
            width = self.random.choice([1, 2, 4, 8])
            place = self.random.randrange(-REDZONE, round_up(size) + REDZONE)
            self.access(["load", "store"][drawn % 2], width, at + place)
        elif drawn < 9:
            self.free(at + self.random.choice([0, 0, 4]))
        else:
            self.malloc(at, size)


def long_trace() -> Long:
    """Draws the trace, the same one each time. It takes some seconds."""
    drawn = Drawn()
    small = drawn.fill_quarantine()
    model = drawn.model
    assert model.most_released == RELEASED_AT_ONCE and not model.lines
    while len(model.lines) < REPORTS:
        drawn.touch(*drawn.random.choice(small))
    trace = traces.closed(*drawn.records, header=traces.HEADER_2)
    end = f"end closed events {model.events} offset {len(trace)} reports {len(model.lines)}\n"
    return Long(trace, [*model.lines, end])


_known: Optional[Long] = None


def known_trace() -> Long:
    """Returns the trace, which is drawn once."""
    global _known
    if _known is None:
        _known = long_trace()
    return _known
