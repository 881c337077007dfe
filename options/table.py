"""Reads the tables of options, the files *.options.

A table is blocks of lines `Key: value` with empty lines between them. A line that begins with a blank goes on with the
value above it, and a line that begins with `#` is a comment. The first line of a block says what it is:

    Program: NAME          a program, or a command of one, as `asancol check`
    Groups:                the headings of its options, in their order
    Head:, Foot:           what its help has before and after the options
    Operands:              `files`; `files PATTERN, with --OPTION PATTERN`; WORD, WORD..; or `a command`, which has its
                           own words, perhaps after others: `a file, a folder, a command`
    Wraps:                 another program, whose words it takes: it has no completions
    Help:                  what a command is for

    Option: -x, --NAME V   an option, with its letter and the name of its value if it has them; or with one dash alone
    Alias:                 another name for it
    Takes:                 a number, LEAST to MOST, or seconds or octal digits; a file to write, or to read; a file to
                           read, PATTERN; a folder; the beginning of a name; a name; a URL; a command; a group; WORD,
                           WORD..; or `as PROGRAM`: what that has, with its default
    Default:               what it is if the option is not given
    Repeats:               `yes` if each of several counts
    Sets:                  the field of `struct options` (run/options.h)
    Passed to:             the program that `asancol-run` hands it to
    Written by:            the module of asancol_report that writes this output
    Group of PROGRAM, ..:  these programs have it, under this heading; `none`: no help, page or completion has it
    Help:                  one line, for the help and the completions; what follows a `;` is for the help alone
    Page:                  a paragraph for the manual page, a sentence a line. `WORD` is literal, *WORD* a value, and a
                           line `.` begins a new paragraph. {range} and {default} are the option's
    Default of PROGRAM:, Help of PROGRAM:, Page of PROGRAM:   for this one
"""

from __future__ import annotations

import re
from dataclasses import dataclass
from typing import Dict, Iterator, List, NamedTuple, Tuple


class Wrong(Exception):
    """A mistake in a table."""


class Takes(NamedTuple):
    """What values an option takes."""

    kind: str  # flag, number, seconds, digits, output, input, folder, prefix, name, url, command, group or words
    least: str = ""
    most: str = ""
    words: Tuple[str, ...] = ()
    pattern: str = ""


# Options after which a program ends, whatever else its command line has.
SHOWN = ("--help", "--version", "--doctor")

KINDS = {
    "a file to write": "output",
    "a file to read": "input",
    "a folder": "folder",
    "the beginning of a name": "prefix",
    "a name": "name",
    "a URL": "url",
    "a command": "command",
    "a group": "group",
}


@dataclass
class Option:
    """An option, with its leading dashes."""

    name: str
    letter: str
    value: str
    joint: str  # between name and value: a blank, or =
    takes: Takes
    keys: Dict[str, str]
    groups: Dict[str, str]

    def of(self, key: str, program: str = "") -> str:
        """Returns what a key says for a program."""
        return self.keys.get(f"{key} of {program}", self.keys.get(key, ""))

    @property
    def names(self) -> List[str]:
        return [self.name, self.of("Alias")] if self.of("Alias") else [self.name]

    @property
    def range(self) -> str:
        return f"{self.takes.least} to {self.takes.most}" if self.takes.least else ""

    def page(self, program: str) -> List[str]:
        """Returns the lines of its paragraph."""
        text = self.of("Page", program).replace("{range}", self.range)
        return text.replace("{default}", self.of("Default", program)).split("\n")

    def short(self, program: str) -> str:
        """Returns its line for a completion."""
        return self.of("Help", program).split(";")[0]


@dataclass
class Program:
    """A program, or a command of one, and its options in the order of the table."""

    name: str
    keys: Dict[str, str]
    options: List[Option]
    table: str

    @property
    def groups(self) -> List[str]:
        return self.keys["Groups"].split(", ") if "Groups" in self.keys else []

    @property
    def before_command(self) -> List[str]:
        """What stands before the command that it is given."""
        return self.keys["Operands"].split(", ")[:-1] if self.has_command else []

    @property
    def has_command(self) -> bool:
        """Whether its last operand is a command with words of its own."""
        return self.keys.get("Operands", "").endswith("a command")

    @property
    def shown(self) -> List[Option]:
        """The options that users see, group by group."""
        return [it for group in self.groups for it in self.in_group(group)]

    def in_group(self, group: str) -> List[Option]:
        return [it for it in self.options if it.groups[self.name] == group]


PROGRAM = ("Program", "Groups", "Head", "Foot", "Operands", "Wraps", "Help")
OPTION = ("Option", "Alias", "Takes", "Default", "Repeats", "Sets", "Passed to", "Written by", "Help", "Page")
OF_PROGRAM = re.compile(r"(Group|Default|Help|Page) of .+")
DECLARED = re.compile(r"(?:(-\w), )?(--?[a-z][a-z-]+)(?:([ =])(\w+))?")


def blocks_of(path: str) -> Iterator[Dict[str, str]]:
    """Goes over the blocks of a table."""
    block: Dict[str, str] = {}
    key = ""
    with open(path, encoding="utf-8") as file:
        lines = [it for it in file.read().splitlines() if not it.startswith("#")]
    for line in [*lines, ""]:
        match = re.fullmatch(r"([A-Z][\w ,+-]*): (\S.*)", line)
        if line.startswith(" ") and key:
            block[key] += "\n" + line[1:]
        elif match and match[1] not in block:
            key = match[1]
            block[key] = match[2]
        elif line:
            raise Wrong(f"{next(iter(block.values()), '')}: this is no line of a block, or it is there twice: {line}")
        elif block:
            yield block
            block, key = {}, ""


def takes_of(text: str) -> Takes:
    """Reads what values an option takes."""
    match = re.fullmatch(r"(a number|seconds|octal digits), ([\d.]+) to (\d+)", text)
    if match:
        return Takes(match[1].split()[-1], match[2], match[3])
    kind, _, pattern = text.partition(", ")
    if kind in KINDS:
        return Takes(KINDS[kind], pattern=pattern)
    if text and not re.fullmatch(r"[a-z-]+(, [a-z-]+)+", text):
        raise Wrong(f"this is nothing that an option takes: {text}")
    return Takes("words", words=tuple(text.split(", "))) if text else Takes("flag")


def option_of(block: Dict[str, str], known: List[Program]) -> Option:
    """Reads the block of an option. Those of other tables are known."""
    match = DECLARED.fullmatch(block["Option"])
    if not match:
        raise Wrong("this is no option")
    letter, name, joint, value = (it or "" for it in match.groups())
    if block.get("Takes", "").startswith("as "):
        others = [it for other in known if other.name == block["Takes"][3:] for it in other.options if it.name == name]
        if not others:
            raise Wrong(f"it takes what a program takes that has no such option: {block['Takes']}")
        block = {**block, **{key: others[0].of(key) for key in ("Takes", "Default")}}
    takes = takes_of(block.get("Takes", ""))
    if bool(value) != ("Takes" in block):
        raise Wrong("it has a value and takes none, or the other way round")
    default = block.get("Default", "")
    if default.isdecimal() and not float(takes.least) <= float(default) <= float(takes.most):
        raise Wrong(f"its default is not in its range: {default}")
    groups = {
        program: group
        for key, group in block.items() if key.startswith("Group of ")
        for program in key[len("Group of ") :].split(", ")
    }
    return Option(name, letter, value, joint, takes, block, groups)


def add(option: Option, programs: Dict[str, Program]) -> None:
    """Gives an option to its programs."""
    if not option.groups:
        raise Wrong("no program has it")
    if option.of("Passed to") in set(programs) - set(option.groups):
        raise Wrong(f"{option.of('Passed to')} has no such option")
    for program, group in option.groups.items():
        if program not in programs or group not in [*programs[program].groups, "none"]:
            raise Wrong(f"{program} has no group {group}")
        if group != "none" and not (option.of("Help", program) and option.of("Page", program)):
            raise Wrong(f"it has no Help or no Page for {program}")
        others = [it for other in programs[program].options for it in (other.letter, *other.names) if it]
        if set(others) & {option.letter, *option.names}:
            raise Wrong(f"{program} has it twice, or its letter")
        programs[program].options.append(option)


def read(path: str, name: str, known: List[Program]) -> List[Program]:
    """Reads the programs of a table. Those of other tables are known."""
    programs: Dict[str, Program] = {}
    for block in blocks_of(path):
        first = next(iter(block))
        keys = {"Program": PROGRAM, "Option": OPTION}.get(first, ())
        unknown = [key for key in block if key not in keys and not (keys == OPTION and OF_PROGRAM.fullmatch(key))]
        try:
            if unknown:
                raise Wrong(f"{unknown[0]} is no key of it")
            if keys == PROGRAM:
                programs[block[first]] = Program(block[first], block, [], name)
            else:
                add(option_of(block, known), programs)
        except Wrong as error:
            raise Wrong(f"{block[first]}: {error}") from None
    return list(programs.values())
