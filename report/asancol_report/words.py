"""Words that several outputs share."""

from __future__ import annotations

import os
import re
import signal
import time
from typing import Sequence

# Control characters, lone surrogates (bytes that are no UTF-8), and what turns the direction of text.
UNPRINTABLE = re.compile("[\x00-\x1f\x7f-\x9f\u061c\u200e\u200f\u2028-\u202e\u2066-\u2069\ud800-\udfff]")
SURROGATE = re.compile("[\ud800-\udfff]")


def plural(count: int, one: str) -> str:
    """Returns "1 byte", "2 bytes", "3 processes", "4 crashes", "5 libraries"."""
    if count == 1:
        return f"1 {one}"
    if one.endswith("y"):
        return f"{count} {one[:-1]}ies"
    return f"{count} {one}{'es' if one.endswith(('s', 'sh')) else 's'}"


def escaped(found: re.Match[str]) -> str:
    code = ord(found[0])
    if 0xDC80 <= code <= 0xDCFF:
        return f"\\x{code - 0xDC00:02x}"
    return f"\\x{code:02x}" if code < 0x100 else f"\\u{code:04x}"


def printable(text: str) -> str:
    """Returns a text of one line that does nothing to a terminal: what can't be printed is escaped."""
    return text if text.isascii() and text.isprintable() else UNPRINTABLE.sub(escaped, text)


def whole_characters(text: str) -> str:
    """Returns a text without lone surrogates, which JSON and HTML readers may refuse."""
    return text if text.isascii() else SURROGATE.sub("\ufffd", text)


def command_line(argv: Sequence[str]) -> str:
    """Returns a command as a shell would show it: words that have blanks in them are quoted."""
    return " ".join(word if word and not re.search(r"[\s'\"]", word) else "'" + word.replace("'", "'\\''") + "'"
                    for word in argv)


def signal_name(number: int) -> str:
    try:
        return signal.Signals(number).name
    except ValueError:
        return f"signal {number}"


LAST_SECOND = 253402300799  # of the year 9999


def date_and_time(seconds: float, form: str = "%Y-%m-%d %H:%M:%S UTC") -> str:
    """Returns a time that is given in seconds since 1970."""
    return time.strftime(form, time.gmtime(min(seconds, LAST_SECOND)))


def shown_path(path: str, root: str) -> str:
    """Returns a path as seen from a folder, if it is below this folder, and else as it is."""
    if root and path.startswith(root.rstrip("/") + "/"):
        return path[len(root.rstrip("/")) + 1:]
    return path


def stable_path(path: str, root: str) -> str:
    """Returns the end of a path that is the same wherever the sources lie: what comes after the folder `root`, if there
    is one and the path lies below, and else the last two names."""
    shown = shown_path(path, root)
    return shown if root and not shown.startswith("/") else "/".join(path.split("/")[-2:])


# The version of rustc in the paths of its library.
RUST_VERSION = re.compile(r"\A(/rustc/)[0-9a-f]{40}/")


def tidy(path: str) -> str:
    """Returns a path of a compiler without the steps back that it may have in it, and without the version of rustc."""
    return RUST_VERSION.sub(r"\1", os.path.normpath(path)) if path else ""
