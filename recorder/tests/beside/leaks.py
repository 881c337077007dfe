"""What LeakSanitizer and asancol-run say of leaks, place by place."""

import glob
import json
import os
import re
from typing import Dict, Iterable, List, Tuple

# What one place has lost, directly and indirectly: bytes and blocks of each.
Lost = Tuple[int, int, int, int]
NOTHING: Lost = (0, 0, 0, 0)
# This many blocks of a place may be kept by words that nobody uses any more, in all processes of a suite. With
# AddressSanitizer there may be more such words. Which block leads to which is by chance if hashes are drawn, as in Lua.
STALE = 4

SAID = re.compile(r"(Direct|Indirect) leak of (\d+) byte\(s\) in (\d+) object\(s\)")
OF_SANITIZER = re.compile(rf"^{SAID.pattern} allocated from:\n((?: +#.*\n)*)", re.M)
FRAME = re.compile(r" in .+? (/\S+?):(\d+)(?::\d+)?$", re.M)


def place_of(frames: Iterable[Tuple[str, str]]) -> str:
    """Returns the first line of frames that is the program's, and not that of a header of the system's."""
    own = [(file, line) for file, line in frames if not file.startswith("/usr/")]
    return f"{os.path.basename(own[0][0])}:{own[0][1]}" if own else "?"


def add(places: Dict[str, Lost], place: str, kind: str, size: int, blocks: int) -> None:
    direct, count, indirect, indirect_count = places.get(place, NOTHING)
    if kind == "Direct":
        places[place] = (direct + size, count + blocks, indirect, indirect_count)
    else:
        places[place] = (direct, count, indirect + size, indirect_count + blocks)


def of_sanitizer(log: str) -> Dict[str, Lost]:
    """Returns what LeakSanitizer has written for all processes, to files whose names begin with `log`."""
    places: Dict[str, Lost] = {}
    for name in glob.glob(f"{glob.escape(log)}.*"):
        with open(name, encoding="utf-8", errors="replace") as file:
            text = file.read()
        for kind, size, blocks, frames in OF_SANITIZER.findall(text):
            add(places, place_of(FRAME.findall(frames)), kind, int(size), int(blocks))
    return places


def of_result(path: str) -> Dict[str, Lost]:
    """Returns what a result of asancol-run says."""
    places: Dict[str, Lost] = {}
    with open(path, encoding="utf-8") as file:
        findings = [it for it in map(json.loads, file) if it["type"] == "finding"]
    for it in findings:
        said = SAID.match(it.get("said", ""))
        if said:
            frames = [(frame["file"], str(frame.get("line", 0))) for frame in it["stack"] if "file" in frame]
            add(places, place_of(frames), said[1], int(said[2]), int(said[3]))
    return places


def are_alike(ours: Lost, theirs: Lost) -> bool:
    """Whether the blocks that LeakSanitizer finds are found, and at no place that it does not know."""
    found, real = ours[1] + ours[3], theirs[1] + theirs[3]
    return found >= real - STALE and (real != 0 or found <= STALE)


def differences(real: Dict[str, Lost], recorded: Dict[str, Lost]) -> List[str]:
    """Returns a line for each place of which the two say not the same."""
    pairs = ((place, recorded.get(place, NOTHING), real.get(place, NOTHING)) for place in sorted({*real, *recorded}))
    return [f"{place}: {ours}, and LeakSanitizer says {theirs}" for place, ours, theirs in pairs
            if not are_alike(ours, theirs)]


def blocks_in(places: Dict[str, Lost]) -> int:
    return sum(count + indirect_count for _, count, _, indirect_count in places.values())
