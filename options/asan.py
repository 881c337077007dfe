"""Generated from the table of AddressSanitizer's options: the tables of its page."""

from __future__ import annotations

import itertools
import re
from typing import List, NamedTuple

from table import Wrong

TABLE = "common/asan_options.def"
PAGE = "docs/ASAN.md"
ROW = re.compile(r'^OPTION\((\w+), (\w+), "([^"]*)",\s*((?:"[^"]*"\s*)+)\)$', re.M)
REGION = re.compile(r"(?<=^<!-- options: )(\w+) -->\n(?:.*\n)*?(?=^<!-- end of options -->$)", re.M)
FATES = {"taken": ("RUN", "PROCESS"), "fixed": ("FIXED",)}


class Row(NamedTuple):
    name: str
    fate: str
    value: str
    here: str


def rows_of(text: str) -> List[Row]:
    rows = [Row(name, fate, value, "".join(re.findall('"([^"]*)"', here))) for name, fate, value, here in
            ROW.findall(text)]
    if len(rows) != len(re.findall(r"^OPTION\(", text, re.M)):
        raise Wrong(f"{TABLE}: a row is of another form")
    return rows


def table_of(kind: str, rows: List[Row]) -> List[str]:
    if kind == "taken":
        return ["| option | meaning |", "|---|---|", *(f"| `{it.name}` | {it.here} |" for it in rows)]
    lines = ["| option | supported | |", "|---|---|---|"]
    # Neighbours that say the same are one row.
    for (value, here), same in itertools.groupby((it for it in rows if it.here), lambda it: (it.value, it.here)):
        names = ", ".join(f"`{it.name}`" for it in same)
        lines.append(f"| {names} | {f'`{value}`' if value else 'none'} | {here} |")
    return lines


def page_of(page: str, table: str) -> str:
    """Returns the page with its tables written anew: each stands between `options: KIND` and `end of options`."""
    rows = rows_of(table)

    def region(match: "re.Match[str]") -> str:
        of_kind = [it for it in rows if it.fate in FATES[match[1]]]
        return "\n".join([f"{match[1]} -->", *table_of(match[1], of_kind), ""])

    return REGION.sub(region, page)
