"""Stacks as a reader wants them: frames of libraries that every program has are one line."""

from __future__ import annotations

import re
from typing import Callable, Iterator, List, Tuple

from .findings import Frame, RUST_LIBRARY, Stack
from .functions import is_standard, scope_of
from .words import plural

LIBRARY = re.compile(r"/lib(?:32|64|x32)?/(?:.*/)?(libc|libstdc\+\+|libc\+\+|libc\+\+abi)(?:-[\d.]+)?\.so[.\d]*\Z")
# A source of the recorder; or what stands for one where no line is known, as of one that is installed.
OF_RECORDER = "<recorder>"
RECORDER = re.compile(r"(?:\A|/)recorder/(?:base|calls|heap|interface|process|shadow|stacks|stream)/\w+\.[ch]\Z|"
                      rf"\A{OF_RECORDER}\Z")
# The headers of C++'s library: a function there that takes a local type, as a lambda is, may have no scope in its name.
CXX_HEADER = re.compile(r"/include/c\+\+/(?:v1|\d[\d.]*)/")
# What calls a test, by the scope of functions or by the source.
TEST_SCOPES = (("testing::", "googletest"), ("Catch::", "Catch2"), ("doctest::", "doctest"),
               ("boost::unit_test::", "Boost.Test"))
UNITY = re.compile(r"(?:\A|/)unity(?:_fixture)?\.c\Z")
# A line of source that is longer is cut, and the column stays in view.
MAX_SHOWN = 100
BEFORE_CARET = 60

# Calls are repeated if at least this many frames are the same as those before, in groups of at most this size.
MIN_REPEATED, MAX_GROUP = 3, 8
SAME_CALLS = "the same calls"
# The number of a frame, 1 and nothing; or that of the first of some that are one line, how many they are, and what has
# them.
Row = Tuple[int, int, str]


def owner_of(frame: Frame) -> str:
    """Returns whose code a frame is; nothing, if it may be the program's."""
    library = LIBRARY.search(frame.module)
    if library:
        return library[1]
    if RECORDER.search(frame.file):
        return "the recorder"
    if is_standard(frame.function) or RUST_LIBRARY.search(frame.file) or CXX_HEADER.search(frame.file):
        return "std::"
    return owner_of_test(frame)


def owner_of_test(frame: Frame) -> str:
    """Returns which framework calls tests by a function."""
    scope = scope_of(frame.function)
    found = next((name for start, name in TEST_SCOPES if scope.startswith(start)), "")
    return found or ("Unity" if UNITY.search(frame.file) else "")


def rows_of(stack: Stack, own: int, owner_of: Callable[[Frame], str] = owner_of,
            hidden: Tuple[str, ...] = ()) -> Iterator[Row]:
    """Yields frames with their numbers, and how many are one line. The one that stands for the place is a line, and so
    is one that is alone, unless its owner is hidden. Calls that come again and again, as in a recursion, are lines the
    first time."""
    at = 0
    while at < len(stack):
        owners: List[str] = []
        end = at
        while end < len(stack) and end != own and owner_of(stack[end]):
            owners.append(owner_of(stack[end]))
            end += 1
        if end - at > 1 or owners[:1] and owners[0] in hidden:
            yield at, end - at, in_words(list(dict.fromkeys(owners)))
            at = end
        else:
            yield at, 1, ""
            at += 1
            count = repeated(stack, at, own)
            if count:
                yield at, count, SAME_CALLS
                at += count


def repeated(stack: Stack, at: int, own: int) -> int:
    """Returns how many frames from `at` on are the same calls as those before; 0, if they are not."""
    for group in range(1, min(at, MAX_GROUP) + 1):
        end = at
        while end < len(stack) and end != own and stack[end] == stack[end - group]:
            end += 1
        if end - at >= max(MIN_REPEATED, group):
            return end - at
    return 0


def in_words(names: List[str]) -> str:
    return " and ".join(filter(None, (", ".join(names[:-1]), names[-1])))


def folded(count: int, owners: str) -> str:
    return f"{plural(count, 'frame')} of {owners}"


def window(text: str, caret: int) -> Tuple[str, str]:
    """Returns a line of source as far as it is shown, and what comes before its column; all of it, if none is known."""
    start = max(0, min(caret - BEFORE_CARET, len(text) - MAX_SHOWN))
    front = ".." if start else ""
    shown = text[start:start + MAX_SHOWN]
    end = ".." if start + MAX_SHOWN < len(text) else ""
    return front + shown + end, front + text[start:max(caret - 1, start)]
