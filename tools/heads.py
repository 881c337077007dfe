"""What the head of a C file says of who calls its functions, in which thread, and under which lock.

A reader who has a function and its head alone can then say where else it runs. The head is the beginning of a header,
or of a source without a header of its name. The paragraph begins with "Called:", and says "no lock" where there is
none. If it begins with "as NAME.h says", that header says the rest.

Silence about handlers allows them. The objects that recorder/tests/sources.py lists call more than a handler may, so
their heads say which of their functions a handler calls.

"one_name, other_name by FILE.c and FILE.h" is held against the code: each file has one of the names, and each name is
in one of the files, by itself or as a table of functions calls it.
"""

import ast
import os
import re
from typing import Any, Dict, Iterator, List, Set, Tuple

from files import TOP

Finding = Tuple[str, int, str]

HEADERS = re.compile(r"(?:recorder|run|common)/(?!tests/|cxx/)(?:.+/)?[\w-]+\.h(?:pp)?")
SOURCES = re.compile(r"(?:recorder|run|common)/(?!tests/|cxx/)(?:.+/)?[\w-]+\.c(?:pp)?")
# Files without a function: texts for the assembler, macros and constants; and headers of programs.
EXEMPT = {
    "recorder/base/aarch64_stubs.h",
    "recorder/base/own_zeros_begin.c",
    "recorder/base/own_zeros_end.c",
    "recorder/base/platform.h",
    "recorder/base/processor_stubs.h",
    "recorder/base/x86_64_stubs.h",
    "recorder/calls/every.c",
    "recorder/clang_intrinsics.h",
    "recorder/cold_reports.h",
    "recorder/process/by_option.c",
    "recorder/stacks/depth.h",
    "recorder/start/by_flag.c",
}
LIST = "recorder/tests/sources.py"
FIRST_COMMENT = re.compile(r"\s*/\*.*?\*/", re.S)
CALLED = re.compile(r"\bCalled:((?:(?!\n\s*\n|\*/).)*)", re.S)
AS_THERE = re.compile(r"\s+as\s+([\w-]+\.h)\s+says\b")
WORDS = {"thread": re.compile(r"\bthreads?\b", re.I), "lock": re.compile(r"\b(?:lock(?:s|ed)?|unlocked)\b", re.I)}
HANDLER = {"handler": re.compile(r"\bhandlers?\b", re.I)}
LISTED = r"(?:, (?:and )?| and )"
NAME, FILE = r"\b[a-z]\w*_\w+", r"[\w/]+\.[ch]\b"
CALLERS = re.compile(rf"({NAME}(?:{LISTED}{NAME})*) (?:also )?by ({FILE}(?:{LISTED}{FILE})*)")
# How tables have functions: hooks.def, and initialisers such as that of `above`.
HOOKED = re.compile(r"\b(?:TELL|ASK)\w*\((?:[\w *]+, )?(\w+), (\w+),")
INITIALISED = re.compile(r"\.(\w+) = (\w+),")
INCLUDED = re.compile(r'^#include "(?:\w+/)*(\w+\.h)"', re.M)


def read(path: str) -> str:
    with open(f"{TOP}/{path}", encoding="utf-8") as file:
        return file.read()


def paragraphs_of(path: str) -> List[str]:
    """Returns what a head says after "Called:". Of a source the first comment alone is its head."""
    text = read(path)
    comment = FIRST_COMMENT.match(text)
    if SOURCES.fullmatch(path):
        text = comment.group() if comment else ""
    return CALLED.findall(text)


def missing_in(path: str, words: Dict[str, "re.Pattern[str]"], files: Set[str]) -> List[str]:
    """Returns what a head lacks: "Called:", or words of that paragraph."""
    paragraphs = paragraphs_of(path)
    if not paragraphs:
        return ["Called:"]
    for as_there in [it for it in map(AS_THERE.match, paragraphs) if it]:
        there = f"{os.path.dirname(path)}/{as_there.group(1)}"
        if there not in files:
            return [there]
        paragraphs += paragraphs_of(there)
    return [word for word, pattern in words.items() if not any(pattern.search(it) for it in paragraphs)]


def is_head(path: str, files: Set[str]) -> bool:
    stem = os.path.splitext(path)[0]
    return bool(HEADERS.fullmatch(path) or SOURCES.fullmatch(path) and not files & {f"{stem}.h", f"{stem}.hpp"})


class Code:
    """The sources without their comments, and the other names by which functions are called."""

    def __init__(self, files: List[str]) -> None:
        parts = re.compile(r"(?:recorder|run|common)/(?!tests/)(?:.+/)?[\w-]+\.(?:[ch](?:pp)?|def)")
        self.code = {it: re.sub(r"/\*.*?\*/", " ", read(it), flags=re.S) for it in files if parts.fullmatch(it)}
        self.words = {path: set(re.findall(r"\w+", text)) for path, text in self.code.items()}
        self.others: Dict[str, Set[str]] = {}
        for path, text in self.code.items():
            for field, name in INITIALISED.findall(text):
                self.others.setdefault(name, set()).add(field)
            for hook, name in HOOKED.findall(text) if path.endswith("hooks.def") else []:
                self.others.setdefault(name, set()).update({f"note_{hook}", f"ask_{hook}"})

    def words_of(self, file: str, head: str) -> Set[str]:
        """Returns the words of a file that a head names, and of what it includes, without the head's own."""
        own = os.path.splitext(head)[0]
        found = {it for it in self.code if it == file or it.endswith(f"/{file}")}
        included = {it for path in found for it in INCLUDED.findall(self.code[path])}
        found |= {it for it in self.code if os.path.basename(it) in included}
        return set().union(*(self.words[it] for it in found if os.path.splitext(it)[0] != own))

    def untrue(self, head: str) -> Iterator[str]:
        """Returns the callers that a head names, and that do not call."""
        for names, by in (it for text in paragraphs_of(head) for it in CALLERS.findall(" ".join(text.split()))):
            words = {file: self.words_of(file, head) for file in re.findall(FILE, by)}
            called = {name: {name} | self.others.get(name, set()) for name in re.findall(NAME, names)}
            yield from (file for file in words if not any(words[file] & it for it in called.values()))
            yield from (name for name in called if not any(called[name] & it for it in words.values()))


def constant_of(path: str, name: str) -> Any:
    """Returns what a Python source gives to a name."""
    for it in ast.parse(read(path)).body:
        if isinstance(it, ast.Assign) and [ast.unparse(to) for to in it.targets] == [name]:
            return ast.literal_eval(it.value)
    raise SystemExit(f"tools/heads.py: {path} has no {name}; change LIST or the name here")


def listed(files: Set[str]) -> Set[str]:
    """Returns the heads of the objects that call more than a handler may."""
    front = f"recorder/{constant_of(LIST, 'CHECKS_OF_CALLS')}"
    stems = {f"recorder/{os.path.splitext(it)[0]}" for it in constant_of(LIST, "BESIDES")}
    return ({it for it in files if it.startswith(front) and is_head(it, files)}
            | {f"{it}.h" if f"{it}.h" in files else f"{it}.c" for it in stems})


def findings(files: List[str]) -> Iterator[Finding]:
    known = set(files)
    handlers = listed(known)
    code = Code(files)
    for path in sorted((handlers | EXEMPT) - known):
        yield ("tools/heads.py" if path in EXEMPT else LIST), 1, f"there is no {path}"
    for path in files:
        if not is_head(path, known) or path in EXEMPT:
            continue
        missing = missing_in(path, {**WORDS, **HANDLER} if path in handlers else WORDS, known)
        if missing:
            yield path, 1, ("its head says not who calls, in which thread, in a handler or not, and under which lock: "
                            + ", ".join(missing))
        untrue = list(code.untrue(path))
        if untrue:
            yield path, 1, f"its head names callers that are none: {', '.join(untrue)}"
