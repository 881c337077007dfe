"""Names of functions, as a reader wants them: of C++ they may have hundreds of characters."""

from __future__ import annotations

import functools
import re
from typing import Iterator, Tuple

# Arguments of templates are cut, if they are longer.
MAX_ARGUMENTS = 60
CUT = "<..>"
# What has a < or > in it that opens or closes nothing.
OPERATOR = re.compile(r"operator(?:<=>|<<=?|>>=?|<=?|>=?|->\*?)|->")
ANONYMOUS = "(anonymous namespace)"
STANDARD = ("std::", "__gnu_cxx::", "__cxxabiv1::")
STANDARD_OF_RUST = ("alloc::", "core::", "std::")


def parts(name: str) -> Iterator[Tuple[str, bool]]:
    """Yields a name in pieces: arguments of templates with their brackets, and the text between them."""
    at = start = depth = 0
    while at < len(name):
        operator = OPERATOR.match(name, at)
        if operator:
            at = operator.end()
            continue
        if name[at] == "<":
            if depth == 0:
                yield name[start:at], False
                start = at
            depth += 1
        elif name[at] == ">" and depth:
            depth -= 1
            if depth == 0:
                yield name[start:at + 1], True
                start = at + 1
        at += 1
    yield name[start:], False


@functools.lru_cache(maxsize=1 << 12)
def brief(name: str) -> str:
    """Returns a name in which long arguments of templates are cut."""
    if len(name) <= MAX_ARGUMENTS:
        return name
    return "".join(CUT if is_arguments and len(text) > MAX_ARGUMENTS else text for text, is_arguments in parts(name))


@functools.lru_cache(maxsize=1 << 12)
def is_standard(name: str) -> bool:
    """Whether a function is of C++'s library or Rust's. What it returns, and what its arguments are, says nothing."""
    return is_standard_of_rust(name) if name.startswith("<") else scope_of(name).startswith(STANDARD)


@functools.lru_cache(maxsize=1 << 12)
def scope_of(name: str) -> str:
    """Returns a name of C++ without the arguments of templates, what the function returns, and its arguments."""
    bare = "".join(text for text, is_arguments in parts(name.replace(ANONYMOUS, "")) if not is_arguments)
    return re.split(r"\(|\boperator\b", bare)[0].split(" ")[-1]


def is_standard_of_rust(name: str) -> bool:
    """Whether a function of a type, `<alloc::vec::Vec<app::A>>::push`, is one of Rust's library. If it is one of a
    trait, as in `<core::A as core::B>::function`, that has to be of the library, too."""
    (_, _), (whole, _), *_ = parts(name + "<>")
    bare = "".join(text for text, is_arguments in parts(whole[1:-1]) if not is_arguments)
    return all(it.startswith(STANDARD_OF_RUST) for it in bare.split(" as "))
