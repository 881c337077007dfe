"""What docs/RECORDER.md says of the classes of AddressSanitizer's reports."""

import re
from typing import Dict

from .programs import TOP

HEAD = "| AddressSanitizer's class | in a report |\n|---|---|\n"
# As a row says it of classes that reports have under the same name.
THE_SAME = "the same"


def table_of_classes() -> Dict[str, str]:
    """Returns what stands beside each class: what a report has in its place."""
    with open(f"{TOP}/docs/RECORDER.md", encoding="utf-8") as page:
        rows = page.read().partition(HEAD)[2].partition("\n\n")[0]
    found: Dict[str, str] = {}
    for row in rows.splitlines():
        names, said = row.strip("| ").split(" | ")
        found.update(dict.fromkeys(re.findall(r"`([^`]+)`", names), said))
    return found
