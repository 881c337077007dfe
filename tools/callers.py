"""Who calls the functions of a header, beside what its head says of that (heads.py).

In the folders of EXACT a header names each file that calls a function of it, by the file or by its folder. "As each
function says" leaves that to its other comments; "any file", "anywhere" and "the program" name them all, and `above`
is start.c. Each file that a head of the recorder names is there.
"""

import os
import re
from typing import Dict, Iterator, List, Set

from files import TOP
from heads import Finding, paragraphs_of, read

HEADER = re.compile(r"recorder/\w+/[\w-]+\.hp?p?")
EXACT = re.compile(r"recorder/(?:base|shadow|stacks|stream|heap)/(?!aarch64|x86_64|processor|system)\w+\.h")
# Sources that are linked into programs, where the callers are.
LINKED = re.compile(r"recorder/(?!tests/|out/|wrapper/|plugin/|clang/|cxx/)\w+/\w+\.(?:c|h|def)")
COMMENT = re.compile(r"/\*.*?\*/", re.S)
FUNCTION = re.compile(r"^(?!return |typedef |else )(?:[A-Za-z_]\w*[ *]+)+([a-z_]\w*)\(", re.M)
USE = re.compile(r"(?<![.>\w])(\w+)\(|, (\w+),|= (\w+),")
FILE = re.compile(r"(?:\b(\w+)/)?\b([\w-]+\.(?:c|h|def))\b")
FOLDER = re.compile(r"\b(\w+)/(?!\w)")
ANYBODY = re.compile(r"\bany file\b|\banywhere\b|\bthe program\b")
BY_FUNCTION = re.compile(r"^ as each\s+function\s+says")


def code_of(path: str) -> str:
    return COMMENT.sub("", read(path))


def uses_in(files: List[str]) -> Dict[str, Set[str]]:
    """Returns for each name the linked files that call it or put it into a table, and have no function of the name."""
    found: Dict[str, Set[str]] = {}
    for path in filter(LINKED.fullmatch, files):
        code = code_of(path)
        used = {name for groups in USE.findall(code) for name in groups if name}
        for name in used - set(FUNCTION.findall(code)):
            found.setdefault(name, set()).add(path)
    return found


def said_of_callers(path: str) -> str:
    text = " ".join(paragraphs_of(path))
    return " ".join(COMMENT.findall(read(path))) if BY_FUNCTION.search(text) else text


def named_in(path: str, text: str) -> Set[str]:
    """Returns the files and folders that a head names, as paths. A file without a folder is in the folder of the one
    named before it, or of the head."""
    own = last = os.path.dirname(path)
    names = {"recorder/start/start.c"} if "`above`" in text else set()
    for folder, name in FILE.findall(text):
        last = f"recorder/{folder}" if folder else last
        names |= {f"{last}/{name}", f"{own}/{name}"}
    return names | {f"recorder/{it}" for it in FOLDER.findall(text)}


def unnamed(path: str, uses: Dict[str, Set[str]]) -> List[str]:
    """Returns the files that call a function of a header, and that its head does not name."""
    if ANYBODY.search(" ".join(paragraphs_of(path))):
        return []
    named = named_in(path, said_of_callers(path))
    callers = {it for name in FUNCTION.findall(code_of(path)) for it in uses.get(name, set())}
    others = callers - named - {path, f"{os.path.splitext(path)[0]}.c"}
    return sorted(it for it in others if os.path.dirname(it) not in named)


def missing(path: str, files: Set[str]) -> List[str]:
    """Returns the files that a head names and that are nowhere: in their folder, if that is one of the recorder's."""
    names = {os.path.basename(it) for it in files}
    found = {it for text in paragraphs_of(path) for it in FILE.findall(text)}
    return sorted(f"{folder}/{name}" if folder else name for folder, name in found
                  if (f"recorder/{folder}/{name}" not in files if os.path.isdir(f"{TOP}/recorder/{folder}") and folder
                      else name not in names))


def findings(files: List[str]) -> Iterator[Finding]:
    known, uses = set(files), uses_in(files)
    for path in filter(HEADER.fullmatch, files):
        others = unnamed(path, uses) if EXACT.fullmatch(path) else []
        if others:
            yield path, 1, f"its head does not name all who call its functions: {', '.join(others)}"
        gone = missing(path, known)
        if gone:
            yield path, 1, f"its head names what is not there: {', '.join(gone)}"
