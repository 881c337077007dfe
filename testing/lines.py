"""The lines that asancol prints. Those of reports are read by what asancol-report reads them with."""

import re
from typing import List, NamedTuple, Tuple

from asancol_report.verdicts import REPORT, Line, line_of
from .expectations import Failure

END = re.compile(rb"p\d+ end ([a-z -]+?)(?: (?:events|checked) (\d+))?(?: offset \d+)?(?: reports (\d+))?")


class End(NamedTuple):
    """What a line says of the end of a trace."""

    fate: str
    events: int
    reports: int


def lines_of(text: bytes, is_whole: bool = True) -> Tuple[List[Line], List[End]]:
    """Returns the reports and the ends. Another line is a failure, or left out if the text need not be whole."""
    reports, ends = [], []
    for line in text.splitlines():
        report, end = REPORT.fullmatch(line), END.fullmatch(line)
        if report:
            reports.append(line_of(report))
        elif end:
            ends.append(End(end[1].decode(), int(end[2] or 0), int(end[3] or 0)))
        elif is_whole:
            raise Failure(f"no line of asancol: {line!r}")
    return reports, ends
