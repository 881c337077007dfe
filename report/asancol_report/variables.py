"""Variables as compilers describe them: those of a frame, and where a global is declared."""

from __future__ import annotations

import os
import re
from typing import List, NamedTuple, Tuple

DECLARED = re.compile(r"(.+?):(\d{1,9})(?::\d{1,9})?")
COUNT = re.compile(rb"(\d{1,4}) ")
# Its offset in the frame, its size, and how many bytes its name has, with the line after a colon.
VARIABLE = re.compile(rb"(\d{1,10}) (\d{1,10}) (\d{1,4}) ")
# What GCC calls a string literal, and what Clang calls each of them.
LABEL, LITERAL = re.compile(r"\*?\.LC\d+"), "<string literal>"


class Variable(NamedTuple):
    """A variable of a frame."""

    offset: int
    size: int
    name: str
    line: int = 0

    @property
    def end(self) -> int:
        return self.offset + self.size


def variables_of(text: str) -> Tuple[Variable, ...]:
    """Returns the variables of a frame, from "N OFFSET SIZE LENGTH NAME[:LINE] ..". A truncated one ends them."""
    rest = os.fsencode(text)
    count = COUNT.match(rest)
    at = count.end() if count else 0
    found: List[Variable] = []
    while count and len(found) < int(count[1]):
        numbers = VARIABLE.match(rest, at)
        if numbers is None:
            break
        offset, size, length = map(int, numbers.groups())
        name = rest[numbers.end():numbers.end() + length]
        if len(name) < length:
            break
        at = numbers.end() + length + 1
        found.append(Variable(offset, size, *name_and_line(os.fsdecode(name))))
    return tuple(found)


def name_and_line(text: str) -> Tuple[str, int]:
    declared = DECLARED.fullmatch(text)
    return (declared[1], int(declared[2])) if declared else (text, 0)


def shown_name(name: str) -> str:
    """Returns the name of a variable for a reader. GCC's labels tell literals apart, and say nothing else."""
    return LITERAL if LABEL.fullmatch(name) else name


def declaration_of(text: str) -> Tuple[str, str, int]:
    """Splits what the recorder says of a variable: "name" or "name FILE:LINE". It may be cut."""
    at = text.find(" /")
    if at < 0:
        at = end_of_name(text)
    if at <= 0:
        return text, "", 0
    return (text[:at], *name_and_line(text[at + 1:]))


def end_of_name(text: str) -> int:
    """Returns where the first blank is that is in no brackets: names have some, as `<string literal>`, `A<int,
    char>::b` and `(anonymous namespace)::c`. -1: there is none."""
    depth = 0
    for at, letter in enumerate(text):
        depth += (letter in "(<") - (letter in ")>")
        if letter == " " and depth <= 0:
            return at
    return -1
