"""Generated from the table of shadow bytes: the table of asancol-report."""

from __future__ import annotations

import re
from typing import List

from table import Wrong

TABLE = "common/shades.def"
MODULE = "report/asancol_report/shade_table.py"
ROW = re.compile(r'^SHADE\((0x[0-9a-f]{2}), \w+, (\w+), ("[^"]+"), ("[^"]+"),\s*("[^"]+")\)$', re.M)


def module_of(table: str) -> str:
    """Returns the module for class_names.py, classes.py and shadow_rows.py."""
    rows: List[str] = [f'    Shade({byte}, "{kind}", {name}, {legend},\n          {where}),'
                       for byte, kind, name, legend, where in ROW.findall(table)]
    if len(rows) != len(re.findall(r"^SHADE\(", table, re.M)):
        raise Wrong(f"{TABLE}: a row is of another form")
    return "\n".join([
        f'"""Made by `make options` from {TABLE}."""',
        "",
        "from typing import NamedTuple",
        "",
        "",
        "class Shade(NamedTuple):",
        "    byte: int",
        "    kind: str",
        "    class_name: str",
        "    legend: str",
        "    where: str",
        "",
        "",
        "SHADES = (",
        *rows,
        ")",
        "",
    ])
