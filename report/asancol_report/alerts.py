"""What the outputs have in common that show each place as one alert: SARIF, Code Quality, lines of GCC and GitHub."""

from __future__ import annotations

import os
from typing import List, Tuple

from .findings import Finding, Frame, Stack
from .options import Options
from .words import shown_path

ERROR, WARNING = "error", "warning"


def level_of(finding: Finding) -> str:
    """Returns how grave it is. A leak spoils no memory."""
    return WARNING if finding.is_leak else ERROR


def words_of(finding: Finding) -> str:
    """Returns a finding in a sentence, without its place."""
    return ", ".join(filter(None, (finding.title, finding.where, finding.in_tests)))


def steps_of(finding: Finding) -> List[Tuple[str, Stack]]:
    """Returns what happened, in the order of time."""
    threads = finding.threads
    steps = [(f"block allocated{threads.where(threads.allocated, finding.allocated)} here", finding.allocated),
             (f"block freed{threads.where(threads.freed, finding.freed)} here", finding.freed),
             (f"{finding.what}{threads.where(threads.access)} here", finding.stack)]
    return [(title, frames) for title, frames in steps if frames]


def root_of(options: Options) -> str:
    """Returns the folder from which paths are seen: that of --source-root, or else the current one."""
    return os.path.realpath(options.value("--source-root", "."))


def place_below(root: str, finding: Finding) -> Frame:
    """Returns the frame that whoever has the files below a folder can show: that of the place, or if it is not below,
    the first that is."""
    frames = (finding.top, *finding.stack)
    return next((it for it in frames if it.line and not shown_path(it.file, root).startswith("/")), finding.top)
