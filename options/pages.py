"""Generates from a table for manual pages: lists of options, in mdoc."""

from __future__ import annotations

import re
from typing import Iterator, List, Set

from table import Option, Program, Wrong

# Literal text, a value, or another page.
MARKED = re.compile(r"`([^`]+)`|\*([^*]+)\*|([\w+-]+)\((\d)\)")
# Alone in an argument, they are not text of the macro.
DELIMITERS = (".", ",", ":", ";", "(", ")", "[", "]", "?", "!", "|")
GLUED = re.compile(r"^(.*?)(\S*)$")
REGION = re.compile(r'(?<=^\.\\" options: )(?:(.+): )?(.+)\n(?:.*\n)*?(?=^\.\\" end of options$)', re.M)


def line_of(match: "re.Match[str]", before: str, after: str, program: str) -> str:
    """Returns the macro for a marked word, with the text attached to it, in the page of this program."""
    literal, value, page, section = match.groups()
    if page == program:
        return " ".join([".Nm", *before, *after])
    word = literal or value or f"{page} {section}"
    macro = "Ar" if value else "Xr" if page else "Fl" if word.startswith("-") else "Ql"
    word = word[1:] if macro == "Fl" else word
    if word in DELIMITERS:
        word = f"\\&{word}"
    return " ".join([f".{macro}", *before, word, *after])


def marked_up(text: str, program: str) -> Iterator[str]:
    """Goes over the lines that a line of a paragraph becomes."""
    if text == ".":
        yield ".Pp"
        return
    at = 0
    while True:
        match = MARKED.search(text, at)
        if not match:
            break
        glued = GLUED.fullmatch(text[at : match.start()])
        plain, before = glued.groups() if glued else ("", "")
        after = re.split(r"\s", text[match.end() :], maxsplit=1)[0]
        if plain.strip():
            yield plain.strip()
        yield line_of(match, before, after, program)
        at = match.end() + len(after)
    if text[at:].strip():
        yield text[at:].strip()


def item_of(option: Option, program: str) -> List[str]:
    """Returns the lines of an option."""
    letter = f"{option.letter[1:]} , Fl " if option.letter else ""
    value = f" {'Ns = Ns ' if option.joint == '=' else ''}Ar {option.value}" if option.value else ""
    head = f".It Fl {letter}{option.name[1:]}{value}"
    return [head, *(line for it in option.page(program) for line in marked_up(it, program))]


def list_of(options: List[Option], program: str) -> str:
    items = [line for it in options for line in item_of(it, program)]
    return "\n".join([".Bl -tag -width Ds", *items, ".El"]) + "\n"


def page_of(text: str, programs: List[Program]) -> str:
    """Returns a page with its lists written anew. Each list stands between `.\\" options: GROUP`, or `.\\" options:
    PROGRAM: GROUP`, and `.\\" end of options`."""
    by_name = {it.name: it for it in programs}
    done: Set[str] = set()

    def region(match: "re.Match[str]") -> str:
        program = by_name[match[1] or programs[0].name]
        done.update(it.name for it in program.in_group(match[2]))
        head = match[0].partition("\n")[0]
        return f"{head}\n{list_of(program.in_group(match[2]), program.name)}"

    made = REGION.sub(region, text)
    for it in {option.name: option for program in programs for option in program.shown}.values():
        if it.name not in done:
            raise Wrong(f"{programs[0].name}: the page has no list with {it.name}")
    return made
