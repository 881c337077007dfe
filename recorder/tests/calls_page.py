#!/usr/bin/env python3
"""Prints docs/CALLS.md, which lists the recorded accesses of each row of recorder/calls/calls.def. `make docs` writes
it.

usage: recorder/tests/calls_page.py > docs/CALLS.md
"""

import os
import re
import sys
from typing import Dict, List

sys.path.insert(0, f"{os.path.dirname(os.path.realpath(__file__))}/../..")  # where `testing` is

from calls import Row, rows, split
from support import RECORDER

HEAD = """# Calls of the C library

The loads and stores that the recorder records of each call, at the place of the call
([RECORDER.md](RECORDER.md#calls-of-the-c-library)). If all are good, nothing is recorded. Calls that [libraries
make](RECORDER.md#plain-libraries) count as the program's own, except those of mathematics. `make docs` generates this
page from [calls.def](../recorder/calls/calls.def).

A name that this C library does not have is omitted when the recorder is built. Names that begin with `__` are those
that headers put in the place of a function: `__..._chk` with `_FORTIFY_SOURCE`, `__isoc99_` and `__isoc23_` by the
standard of C. In the former the C library ends the process if there is less room than a call may take; the accesses of
the call are recorded before that. Reads and writes after the call count as far as its result says: the conditions are
about that. Output is checked before the call and recorded after it.

A string that a function takes is checked up to its end, as by AddressSanitizer with `strict_string_checks`. But if it
is searched or compared, or has a number (`strtol`, `atoi`), only the part that is read counts, unless that option is
set; of wide strings in any case. For `%9s` of `scanf` it is the part that is stored. Not checked in formats are
conversions after a position (`%1$s`) or after one that the program has registered, `%ls` with a precision, and a `%n`
of `scanf` after its last value and other text than blanks.

Other functions are not recorded. Of these AddressSanitizer checks XDR, `crypt`, `tmpnam`, `tempnam`, and further
requests of `ioctl`. `exec` and its like are recorded, but not listed: the path, the arguments and the environment.
"""

CONDITIONS = {
    "GOT": "if it is above 0",
    "DONE": "if it is 0",
    "result": "if there is one",
    "result >= 0": "if it is not negative",
}

# What a word with its arguments means, {0} being the first.
MEANINGS = {
    "APART": "the two must not overlap",
    "APART_OR_SAME": "the two must not overlap, unless they are the same",
    "APART_WITHIN": "the two must not overlap",
    "READS_FIRST": "reads the first byte of {0}",
    "READS_STRING": "reads the string {0}",
    "WRITES_STRING": "writes the string {0}",
    "GIVES_STRING": "reads the string {0}",
    "GIVES_LIST": "reads the strings {0}",
    "READS_WIDE": "reads the wide string {0}",
    "WRITES_WIDE": "writes the wide string {0}",
    "READS_ARRAY": "reads {1} elements of {0}",
    "WRITES_ARRAY": "writes {1} elements of {0}",
    "READS_HEADS": "reads the list {0}",
    "WRITES_PIECES": "writes the first {2} bytes of the pieces",
    "SENT": "has read the first {1} bytes of {0}",
    "SENT_PIECES": "has read the first {2} bytes of the pieces",
    "ALLOCATED": "what it allocates is its caller's malloc",
    "APPENDS": "reads both strings up to their ends, {1} by at most {2} bytes, and writes from the end of {0} on; "
    "what is written must not overlap {1}",
    "WIDE_APPENDS": "reads both strings up to their ends, {1} by at most {2} letters, "
    "and writes from the end of {0} on; what is written must not overlap {1}",
    "COMPARES": "reads both strings up to the first difference, at most {2} bytes",
    "COMPARES_FOLDED": "reads both strings up to the first difference, at most {2} bytes",
    "WIDE_COMPARES": "reads both strings up to the first difference, at most {2} letters",
    "WIDE_COMPARES_FOLDED": "reads both strings up to the first difference, at most {2} letters",
    "READS_NUMBER": "reads the number and what follows it; writes {2}",
    "READS_WIDE_NUMBER": "reads the number and what follows it; writes {2}",
    "READS_DIGITS": "reads the number and the byte after it",
    "READS_REAL": "reads the number and the byte after it",
    "READS_MESSAGE": "reads the head of the message, its list of pieces, its address and its control data",
    "READS_MESSAGES": "reads {0}, and of each the list of pieces, the address and the control data",
    "SENT_MESSAGES": "has read the pieces of the first {1} messages, up to one with a bad byte",
    "WRITES_MESSAGE": "writes the pieces, the address and the control data of the message",
    "ROOM": "reads `*{0}`",
    "WRITES_ADDRESS": "writes {0}, as far as `*{1}` says and there was room",
    "READS_SET": "reads the set {0}",
    "READS_FILES": "reads what {0} asks for",
    "WRITES_FILES": "if it is not negative, writes what {0} answers",
    "READS_DATE": "reads the date {0}",
    "READS_STATE": "reads `*{0}`",
    "READS_TO": "reads `*{1}`, as far as the call has come",
    "WRITES_MOUNT": "writes {0} and its strings",
    "WRITES_FOUND": "writes {1}, and {0}, its name and aliases if something was found",
    "WRITES_GROUP": "writes {1}, and {0} and its strings if something was found",
    "WRITES_HOST": "writes {1}, and {0}, its names and addresses if something was found",
    "WRITES_USER": "writes {1}, and {0} and its strings if something was found",
    "READS_REQUEST": "reads what the request takes, of the requests that are in words.h",
    "WRITES_REQUEST": "writes what the request gives, of these",
    "READS_CONTROL": "reads the lock or the owner of a file that the command takes",
    "WRITES_CONTROL": "writes the one that it gives",
    "READS_TRACED": "reads what the request takes, of the requests that are in words.h",
    "WRITES_TRACED": "writes what the request gives, of these",
    "OPENS_MEMORY": "writes {1} bytes of {0}, or reads them if the stream can only be read",
    "READS_MATCHED": "reads the string {0}, or with `REG_STARTEND` what the first of {1} says",
    "BEGINS_WORDS": "reads the list {0}",
    "READS_WORDS": "has read those of {0} that it has come past",
    "READS_OPTIONS": "for a long option reads {1} and their names",
}
SILENT = """
ALLOCATES BEGINS BEGINS_CALLERS BEGINS_FILTER BEGINS_LINE ENDS_FILTER ENDS_LINE
FITS FITS_ARRAY GIVES_CALLERS HAS_BEGUN NAMES_THREAD NOT_OURS PRINTS_WITHIN
SENDS SENDS_MESSAGES SENDS_PIECES
""".split()


def code(text: str) -> str:
    if text.isidentifier() and text != "SIZE_MAX":
        return f"`{text}`"
    within = re.fullmatch(r"(?:(?:WIDE_)?LENGTH|GIVEN)_WITHIN\((.*)\)", text)
    if within:
        return f"at most `{split(within.group(1))[1]}`"
    text = re.sub(r"\(size_t\)|\(const char \*\)", "", text)
    text = re.sub(r"^COMPARED\(.*, (\w+)\)$", r"\1", text)
    return f"`{text.replace('LEAST(', 'least(').replace('head.', 'message->')}`"


def bytes_of(verb: str, start: str, size: str) -> str:
    pointed = re.fullmatch(r"sizeof \*(\w+)", size)
    if pointed:
        return f"{verb} `*{pointed.group(1)}`"
    if start == "result ? result : in":
        return f"{verb} `in` from its end on, as far as the call has come"
    string = re.fullmatch(r"(strlen|wcslen)\((\w+)\) \+ 1", size)
    if string and string.group(2) == start:
        return f"{verb} the {'wide ' if string.group(1) == 'wcslen' else ''}string `{start}`"
    if string:
        return f"{verb} as much of `{start}`"
    if "SIZE_TO" in size or "SIZE_TO" in start or "strlen" in size or "wcslen" in size:
        return f"{verb} {code(start if start.isidentifier() else split(size)[0])}, as far as the call has come"
    return f"{verb} {code(size)} bytes of {code(start)}"


def statement(text: str) -> str:
    """What one statement of a row says; nothing if it prepares another."""
    text = text.strip()
    word, _, rest = text.partition("(")
    arguments = split(rest[:-1]) if rest else []
    if word in SILENT or re.match(r"(size_t|(const )?(char|wchar_t) \*|socklen_t|struct msghdr head)", text):
        return ""
    if word == "MOVES":
        to, start, size = arguments
        return f"{bytes_of('reads', start, size)}; {bytes_of('writes', to, size)}"
    if word in ("READS", "WRITES", "READS_TEXT"):
        return bytes_of(word.partition("_")[0].lower(), arguments[0], arguments[1])
    if word in ("READS_ARRAY", "WRITES_ARRAY") and "wcslen" in arguments[1]:
        return bytes_of(word.partition("_")[0].lower(), arguments[0], arguments[1])
    if word in MEANINGS:
        shown = [code(it) if word not in ("ROOM", "READS_STATE", "READS_TO") else it for it in arguments]
        if word == "WRITES_ADDRESS":
            shown[1] = arguments[1]
        said = MEANINGS[word].format(*shown)
        return re.sub(r",[^,]*at most `SIZE_MAX` \w+", "", said).replace("  ", " ")
    return f"`{text}`"


def statements(text: str) -> List[str]:
    """The statements of a text, apart by semicolons outside of braces."""
    parts, depth = [""], 0
    for letter in text:
        depth += (letter in "{(") - (letter in "})")
        if letter == ";" and depth == 0:
            parts.append("")
        else:
            parts[-1] += letter
        if letter == "}" and depth == 0:
            parts.append("")
    return [part.strip() for part in parts if part.strip()]


def condition(text: str) -> str:
    if text.startswith("IS_THERE("):
        return ""
    return CONDITIONS.get(text, f"if `{text.replace('GOT', 'result > 0').replace('DONE', 'result == 0')}`")


def meaning(text: str) -> str:
    """What the statements of one part of a row say."""
    said = []
    for part in statements(text):
        before, rest = "", part
        while rest.startswith(("if (", "for (")):
            end = closing(rest, rest.index("("))
            words = "for each message" if rest.startswith("for") else condition(rest[4:end])
            before += f"{words}, " if words else ""
            rest = rest[end + 1 :].strip()
        inside = statements(rest[1:-1]) if rest.startswith("{") else [rest]
        words = " and ".join(word for word in map(statement, inside) if word)
        if words:
            said.append(before + words)
    return "; ".join(said)


def closing(text: str, at: int) -> int:
    depth = 0
    for i in range(at, len(text)):
        depth += (text[i] == "(") - (text[i] == ")")
        if depth == 0:
            return i
    raise ValueError(text)


def with_values(text: str) -> str:
    """The text with the values of the sizes that it gives names to."""
    for name, value in re.findall(r"size_t (size|count) = ([^;]*);", text):
        text = text.replace(f"size_t {name} = {value};", "")
        text = re.sub(rf"\b{name}\b", value, text)
    return text


def line(row: Row) -> str:
    names = row.names + [row.rest[0]] * row.has_list()
    if row.has_format():
        before, after = (row.rest[3 + row.has_list() :] + ["", ""])[:2]
        before, after = meaning(before), meaning(after)
        if row.word.endswith("SCAN"):
            after = "writes what the format says, as many values as the result"
        else:
            before = "; ".join(filter(None, ["reads the format and what it says of its arguments", before]))
    elif row.word == "LOCK":
        before, after = "writes `*lock`", ""
    else:
        before, after = row.rest[-2:]
        before, after = meaning(with_values(before)), meaning(after)
    parameters = row.parameters()
    return f"| {', '.join(f'`{name}`' for name in names)} | `{parameters}` | {before} | {after} |"


def sections(path: str) -> Dict[str, str]:
    """The parts of the table, by the titles of their comments."""
    with open(path, encoding="ascii") as file:
        text = file.read()
    parts = re.split(r"^/\* (.*?) \*/\n", text.partition("*/")[2], flags=re.M | re.S)[1:]
    return dict(zip(parts[::2], parts[1::2]))


def page(path: str) -> str:
    text = HEAD
    for title, part in sections(path).items():
        text += f"\n## {title.split('.')[0].split(':')[0].split(',')[0]}\n\n"
        text += "| functions | parameters | before the call | after it |\n|---|---|---|---|\n"
        text += "".join(line(row) + "\n" for row in rows(part))
    return text


if __name__ == "__main__":
    sys.stdout.write(page(f"{RECORDER}/calls/calls.def"))
