"""Lines of source files, for fingerprints and excerpts."""

from __future__ import annotations

import os
import re
from bisect import bisect_left, bisect_right
from typing import Dict, List, Optional, Tuple

from .reading import open_regular, read_at

# Larger files, as some that programs make, are not looked at; nor more files at once than this.
MAX_FILE_SIZE = 16 << 20
MAX_FILES = 256
# A line is cut here.
MAX_LINE_LENGTH = 400
# A word of C or C++. A destructor's name begins with a tilde.
WORD = re.compile(r"~?[\w$]+")
TEMPLATE = re.compile("<[^<>]*>")


class Sources:
    """The lines of files, each read once. Files that a compiler names by a relative path are looked for in a folder."""

    def __init__(self, root: str) -> None:
        self.root = root
        self.files: Dict[str, List[str]] = {}
        self.changed: Dict[str, int] = {}  # when a file was last changed, in nanoseconds
        self.numbers: Dict[str, Dict[str, List[int]]] = {}  # of a file, the lines that have a text

    def lines(self, path: str) -> List[str]:
        """Returns the lines of a file; none if it can't be read."""
        lines = self.files.get(path)
        if lines is None:
            if len(self.files) >= MAX_FILES:
                self.files.clear()
                self.numbers.clear()
            lines, self.changed[path] = self.read(os.path.join(self.root, path)) if path else ([], 0)
            self.files[path] = lines
        return lines

    @staticmethod
    def read(path: str) -> Tuple[List[str], int]:
        """Returns the lines of a file, and when it was last changed."""
        try:
            descriptor = open_regular(path)
        except (OSError, ValueError):
            return [], 0
        try:
            changed = os.fstat(descriptor).st_mtime_ns
            text = read_at(descriptor, 0, MAX_FILE_SIZE + 1)
        finally:
            os.close(descriptor)
        # Only a line feed ends a line, as compilers count.
        lines = text.decode(errors="replace").removesuffix("\n").split("\n") if len(text) <= MAX_FILE_SIZE else []
        return lines, changed

    def line(self, path: str, number: int) -> str:
        """Returns the text of a line, without the blanks around and between its words."""
        lines = self.lines(path)
        return without_blanks(lines[number - 1]) if 0 < number <= len(lines) else ""

    def caret(self, path: str, number: int, column: int, built: int) -> Optional[int]:
        """Returns where a column is in the text of a line, from 1; 0 if that is not known. None, if the file is newer
        than the program built from it, at a time in nanoseconds: then its lines may be others."""
        lines = self.lines(path)
        if not 0 < number <= len(lines) or self.changed[path] > built:
            return None
        # Compilers count bytes.
        before = lines[number - 1].encode("utf-8")[:column - 1].decode("utf-8", "ignore") if column else ""
        text = without_blanks(before)
        is_apart = bool(text) and before[-1:].isspace()
        return min(len(text) + is_apart, len(self.line(path, number))) + 1 if column else 0

    def ordinal(self, path: str, number: int, function: str) -> int:
        """Returns which of the lines with the same text a line is, from 1 on, counted from where its function begins.
        If that is not seen, the count is from the front of the file."""
        text = self.line(path, number)
        if path not in self.numbers:
            numbers = self.numbers[path] = {}
            for at, line in enumerate(self.lines(path), 1):
                numbers.setdefault(without_blanks(line), []).append(at)
        same = self.numbers[path].get(text, [])
        return bisect_right(same, number) - bisect_left(same, self.first_of(path, number, function))

    def first_of(self, path: str, number: int, function: str) -> int:
        """Returns the line at which a function that has this line begins: the last one up to it that is not indented,
        has the function's name, and is no statement. 1, if there is none."""
        name = short_name(function)
        lines = self.lines(path)
        for at in range(min(number, len(lines)), 0, -1) if name else ():
            line = lines[at - 1]
            is_outside = name in line and not line[0].isspace() and not line.rstrip().endswith(";")
            if is_outside and name in WORD.findall(line):
                return at
        return 1

    def around(self, path: str, number: int, distance: int) -> List[Tuple[int, str]]:
        """Returns a line with some before and after it, and their numbers."""
        lines = self.lines(path)
        if not 0 < number <= len(lines):
            return []
        last = min(len(lines), number + distance)
        return [(n, lines[n - 1].rstrip("\r").expandtabs(4)[:MAX_LINE_LENGTH])
                for n in range(max(1, number - distance), last + 1)]


def without_blanks(line: str) -> str:
    """Returns a line as it is compared: without the blanks around its words, and with one between them."""
    return " ".join(line[:MAX_LINE_LENGTH].split())


def short_name(function: str) -> str:
    """Returns a function's name as its definition has it: without scopes, templates and parameters."""
    name = function.replace("(anonymous namespace)", "").partition("(")[0]
    while TEMPLATE.search(name):
        name = TEMPLATE.sub("", name)
    words = WORD.findall(name)
    return words[-1] if words else ""
