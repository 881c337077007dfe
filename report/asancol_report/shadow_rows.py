"""The shadow round a bad byte, as AddressSanitizer prints it."""

from __future__ import annotations

from typing import Iterator

from .findings import Rows
from .shade_table import SHADES
from .side import GRANULE, SHADOW_ROW

LEGEND = "\n".join((
    "Shadow byte legend (one shadow byte represents 8 application bytes):",
    "  Addressable:           00",
    "  Partially addressable: 01 02 03 04 05 06 07",
    *(f"  {it.legend + ':':24} {it.byte:02x}" for it in SHADES)))


def lines(rows: Rows, bad: int) -> Iterator[str]:
    """Yields a line for each row, with an arrow before that of the bad byte."""
    yield "Shadow bytes around the buggy address:"
    meant = (bad - rows.start) // GRANULE
    for first in range(0, len(rows.shadow), SHADOW_ROW):
        row = "".join(f" {byte:02x}" for byte in rows.shadow[first:first + SHADOW_ROW]) + " "
        at = 3 * (meant - first)
        is_here = 0 <= at < len(row) - 1
        if is_here:
            row = f"{row[:at]}[{row[at + 1:at + 3]}]{row[at + 4:]}"
        yield f"{'=>' if is_here else '  '}0x{rows.start + first * GRANULE:012x}:{row}".rstrip()
