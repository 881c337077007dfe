"""The report as GitLab's Code Quality reads it."""

from __future__ import annotations

import hashlib
import json
from typing import Dict, TextIO

from .alerts import ERROR, level_of, place_below, root_of, WARNING, words_of
from .findings import Finding
from .options import Options
from .results import Results
from .sources import Sources
from .words import shown_path, whole_characters

SEVERITIES = {ERROR: "critical", WARNING: "minor"}


def entry(finding: Finding, program: str, fingerprint: str, root: str) -> Dict[str, object]:
    top = place_below(root, finding)
    path = shown_path(top.file or top.module or program, root).lstrip("/")
    return {
        "type": "issue",
        "description": whole_characters(words_of(finding)),
        "check_name": finding.class_name,
        "categories": ["Bug Risk"] if finding.is_leak else ["Bug Risk", "Security"],
        "fingerprint": fingerprint,
        "severity": SEVERITIES[level_of(finding)],
        "location": {"path": whole_characters(path[2:] if path.startswith("./") else path) or "unknown",
                     "lines": {"begin": top.line or 1}},
    }


def write(results: Results, out: TextIO, options: Options, sources: Sources) -> None:
    root = root_of(options)
    ordinals: Dict[str, int] = {}
    entries = []
    for finding in (it for it in (*results.counted(), *results.counted_crashes()) if it.follows is None):
        # No two entries may have the same fingerprint.
        name = finding.fingerprint
        ordinal = ordinals[name] = ordinals.get(name, 0) + 1
        if ordinal > 1:
            name = hashlib.sha256(f"{name} {ordinal}".encode()).hexdigest()[: len(name)]
        entries.append(entry(finding, results.program_of(finding), name, root))
    json.dump(entries, out, indent=1)
    out.write("\n")
