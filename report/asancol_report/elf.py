"""The segments, the notes and the recorder's sections of a program or a shared object."""

from __future__ import annotations

import struct
from typing import Iterator, List, Tuple

from .reading import read_at

MAGIC = b"\x7fELF\x02\x01"  # 64 bits, lowest byte first
HEADER_BYTES = 64
SEGMENT = struct.Struct("<IIQQQQ")
SECTION = struct.Struct("<IIQQQQ")
NOTE = struct.Struct("<III")
AARCH64 = 183
LOAD, INTERPRETER, NOTES = 1, 3, 4
BUILD_ID = (b"GNU\0", 3)
LINK = (b"asancol\0", 1)  # what a link by asancol-cc leaves
MAX_NOTES_SIZE = 1 << 16
# The sections of the recorder's code (recorder/Makefile), and how many bytes of names of sections are read.
OF_RECORDER = {b"asancol_own_text", b"asancol_helper_text"}
MAX_NAMES_SIZE = 1 << 16


def notes_in(notes: bytes) -> Iterator[Tuple[Tuple[bytes, int], bytes]]:
    """Yields the owner and the kind of each note, and what it says."""
    at = 0
    while at + NOTE.size <= len(notes):
        name_bytes, bytes_of_it, kind = NOTE.unpack_from(notes, at)
        name_at = at + NOTE.size
        start = name_at + (name_bytes + 3) // 4 * 4
        yield (notes[name_at:name_at + name_bytes], kind), notes[start:start + bytes_of_it]
        at = start + (bytes_of_it + 3) // 4 * 4


class Elf:
    """What the file behind a descriptor says. It may be anything: what it does not say is left empty."""

    def __init__(self, descriptor: int) -> None:
        self.loads: List[Tuple[int, int, int]] = []  # offset in the file, length there, address
        self.build_id = ""  # in hexadecimal
        self.is_program = False
        self.is_linked = False  # by asancol-cc
        self.machine = 0  # the number of its processor
        self.of_recorder: List[Tuple[int, int]] = []  # address and length of the recorder's code
        header = read_at(descriptor, 0, HEADER_BYTES)
        if len(header) < HEADER_BYTES or not header.startswith(MAGIC):
            return
        self.machine, = struct.unpack_from("<H", header, 18)
        table_at, = struct.unpack_from("<Q", header, 32)
        entry_bytes, count = struct.unpack_from("<HH", header, 54)
        if entry_bytes < SEGMENT.size:
            return
        table = read_at(descriptor, table_at, entry_bytes * count)
        for at in range(0, len(table) - SEGMENT.size + 1, entry_bytes):
            kind, _, offset, address, _, length = SEGMENT.unpack_from(table, at)
            if kind == LOAD:
                self.loads.append((offset, length, address))
            elif kind == INTERPRETER:
                self.is_program = True
            elif kind == NOTES:
                self.take_notes(read_at(descriptor, offset, min(length, MAX_NOTES_SIZE)))
        if self.is_linked:
            self.take_sections(descriptor, header)

    def take_sections(self, descriptor: int, header: bytes) -> None:
        table_at, = struct.unpack_from("<Q", header, 40)
        entry_bytes, count, names_number = struct.unpack_from("<HHH", header, 58)
        if entry_bytes < SECTION.size:
            return
        table = read_at(descriptor, table_at, entry_bytes * count)
        sections = [SECTION.unpack_from(table, at) for at in range(0, len(table) - SECTION.size + 1, entry_bytes)]
        if names_number >= len(sections):
            return
        _, _, _, _, names_at, names_bytes = sections[names_number]
        names = read_at(descriptor, names_at, min(names_bytes, MAX_NAMES_SIZE))
        for name_at, _, _, address, _, length in sections:
            if names[name_at:].partition(b"\0")[0] in OF_RECORDER:
                self.of_recorder.append((address, length))

    def is_of_recorder(self, address: int) -> bool:
        return any(start <= address < start + length for start, length in self.of_recorder)

    def take_notes(self, notes: bytes) -> None:
        for what, text in notes_in(notes):
            if what == BUILD_ID and not self.build_id:
                self.build_id = text.hex()
            self.is_linked |= what == LINK

    def address(self, offset: int) -> int:
        """Returns the address that the symbols of the file use for an offset in it."""
        for start, length, address in self.loads:
            if start <= offset < start + length:
                return offset - start + address
        return offset
