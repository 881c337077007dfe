"""Draws traces at random, good and damaged, in each version of the format."""

from random import Random
from typing import List

from testing import traces
from testing.traces import HEADERS, POISON, UNPOISON

END = 1 << 47

# Where the blocks of a trace lie: the ends of the addresses, and both sides of round numbers.
PLACES = [0, 0x1000, 0x7FC0, 0xFFC0, 0x1F_FFC0, 0xFFF_FFC0, 0xFFFF_FFC0, 0x5555_5555_4FC0, END - 0x180, END - 0x60]

NUMBERS_AT_ENDS = [0, 31, 32, END - 8, END - 1, END, END + 1, 1 << 48, (1 << 63) + 8, (1 << 64) - 1]
SIZES_AT_ENDS = [1 << 12, 1 << 16, (1 << 28) - 1, 1 << 28, (1 << 28) + 1, 1 << 32, (1 << 32) + 1, (1 << 64) - 1]


def wrapped(value: int) -> int:
    """Returns a number that has room in a record."""
    return value % (1 << 64)


class Draw:
    """The records of one trace. Blocks are few and near each other, so that events meet."""

    def __init__(self, random: Random) -> None:
        self.random = random
        self.version = random.choice([1, 1, 2, 2, 2, 3, 3, 3])
        self.places = random.sample(PLACES, 1 + (random.random() < 0.2))
        self.used: List[int] = []  # where mallocs were
        self.odd = random.choice([0, 0, 0, 0.01, 0.05])  # how often a number is at an end of its range
        self.step = random.choice([8, 8, 8, 16, 64, 72])

    def address(self) -> int:
        """An address near the others, or where a malloc was."""
        random = self.random
        if self.used and random.random() < 0.7:
            return random.choice(self.used) + random.choice([0, 0, 0, 1, 4, 7, 8, 12, 16, -1, -8, -32, 40])
        if random.random() < self.odd:
            return random.choice(NUMBERS_AT_ENDS)
        return random.choice(self.places) + random.randrange(0, 0x160)

    def size(self) -> int:
        random = self.random
        if random.random() < self.odd:
            return random.choice(SIZES_AT_ENDS)
        return random.choice([0, 1, 3, 5, 7, 8, 8, 9, 12, 16, 24, 40, random.randrange(0, 100)])

    def malloc(self) -> bytes:
        random = self.random
        at = self.address() if random.random() < 0.4 else random.choice(self.places) + 32
        if random.random() < 0.9:
            at = at // 8 * 8 + random.randrange(0, 4) * self.step
        if random.random() < 0.03:
            at = 0
        self.used.append(at)
        return traces.malloc(wrapped(at), wrapped(self.size()))

    def free(self) -> bytes:
        random = self.random
        at = random.choice(self.used) if self.used and random.random() < 0.85 else self.address()
        return traces.free(wrapped(at) if random.random() < 0.97 else 0)

    def access(self) -> bytes:
        random = self.random
        width = random.choice([1, 2, 4, 8])
        if random.random() < self.odd / 4:
            width = random.randrange(256)
        return random.choice([traces.load, traces.store])(width, wrapped(self.address()))

    def poison(self, code: int) -> bytes:
        random = self.random
        at, size = self.address(), self.size()
        if random.random() < 0.4:
            size += -(at + size) % 8
        kind = random.randrange(3 if random.random() >= self.odd / 2 else 6)
        if code == UNPOISON:
            return traces.unpoison(wrapped(at), wrapped(size))
        return traces.poison(wrapped(at), wrapped(size), kind if self.version > 1 else None)

    def record(self) -> bytes:
        if self.version == 3 and self.random.random() < 0.06:
            return traces.anew()
        which = self.random.random()
        if which < 0.22:
            return self.malloc()
        if which < 0.38:
            return self.free()
        if which < 0.75:
            return self.access()
        return self.poison(POISON if which < 0.9 else UNPOISON)

    def trace(self) -> bytes:
        random = self.random
        count = random.choice([0, 1, 2, 3, 5, 8, 12, 16, 24, 40])
        if random.random() < 0.01:
            count = random.randrange(100, 400)
        records = [self.record() for _ in range(count)]
        close = traces.CLOSE if random.random() < 0.8 else b""
        return b"".join([HEADERS[self.version], *records, close])


def damaged(random: Random, trace: bytes) -> bytes:
    """The trace with a few of its bytes changed, lost or new, or cut anywhere."""
    text = bytearray(trace)
    for _ in range(random.choice([1, 1, 1, 2, 4])):
        at = random.randrange(len(text) + 1)
        what = random.randrange(7)
        if what == 0:
            del text[at:]
        elif what == 1:
            del text[at : at + random.randrange(1, 20)]
        elif what == 2:
            text[at:at] = bytes(random.randrange(256) for _ in range(random.randrange(1, 20)))
        elif what == 3 and text:
            text[at % len(text)] ^= 1 << random.randrange(8)
        elif what == 4 and text:
            text[at % len(text)] = random.choice([0, 1, 2, 3, 4, 5, 6, 7, 8, 9, 0x80, 0xFF])
        elif what == 5:
            text[:8] = random.choice([*HEADERS.values(), b"ASTR\x04\0\0\0", b"ASTR\x01\0\0\x01", b"ASTS\x01\0\0\0"])
        else:
            text += text[at:]
    return bytes(text)


def draw(random: Random) -> bytes:
    """One trace: two of three are as a recorder might write them, and may say anything."""
    trace = Draw(random).trace()
    if random.random() < 0.35:
        trace = damaged(random, trace)
    if random.random() < 0.003:
        trace = bytes(random.randrange(256) for _ in range(random.randrange(64)))
    return trace
