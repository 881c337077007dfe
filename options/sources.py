"""Generates from a table for programs: the help, the table of C, and that of Python."""

from __future__ import annotations

import json
import re
from typing import Dict, List, Sequence, Union

from table import Option, Program, SHOWN, Wrong

COLUMNS = 80
LINES = 50


def help_of(program: Program) -> List[str]:
    """Returns the lines of the help."""
    fronts = {}
    for it in program.shown:
        fronts[it.name] = f"  {it.letter + ', ' if it.letter else ''}{it.name}{it.joint}{it.value}"
    column = max(map(len, fronts.values())) + 2
    lines = program.keys["Head"].split("\n")
    for group in program.groups:
        lines.append(f"{group}:")
        for it in program.in_group(group):
            what, semicolon, more = it.of("Help", program.name).partition(";")
            default = f" ({it.of('Default', program.name)})" if it.of("Default", program.name) else ""
            lines.append(f"{fronts[it.name]:{column}}{what}{default}{semicolon}{more}")
    lines += program.keys["Foot"].split("\n")
    wide = [it for it in lines if len(it) > COLUMNS]
    if wide or len(lines) > LINES:
        lines_are = f"{len(lines)} lines of at most {LINES}, and {len(wide)} too wide"
        raise Wrong(f"{program.name}: its help has {lines_are}: {wide[:1]}")
    return lines


def action_of(option: Option) -> str:
    """Returns what asancol-run does with an option, as options.c has it."""
    kind = option.takes.kind
    if option.name in SHOWN:
        return f"SHOW_{option.name[2:].upper()}"
    if option.of("Passed to") == "asancol check":
        return "PASS_CHECK"
    return f"{'PASS' if option.of('Passed to') else 'SET'}_{kind.upper()}"


def row_of(option: Option, name: str) -> str:
    """Returns the row of a name in the table of C. The least of a time is in thousandths."""
    letter = f"'{option.letter[1]}'" if option.letter else "0"
    field = f"AT({option.of('Sets')})" if option.of("Sets") else "0"
    least = str(int(float(option.takes.least or 0) * (1000 if option.takes.kind == "seconds" else 1)))
    words = ", ".join([*(f'"{it}"' for it in option.takes.words), "NULL"])
    words = f"(const char *const[]){{{words}}}" if option.takes.words else "NULL"
    return f'{{"{name[2:]}", {letter}, {action_of(option)}, {field}, {least}, {option.takes.most or 0}, {words}}}'


def macro(name: str, rows: List[str], joint: str = "") -> str:
    """Returns a macro of C of several lines."""
    return f"#define {name} \\\n" + f"{joint} \\\n".join(f"    {it}" for it in rows) + "\n"


def header_of(program: Program, made: str) -> str:
    """Returns the header for options.c."""
    of_check = [it for it in program.options if it.of("Passed to") == "asancol check"]
    numbers = [it for it in program.options if it.takes.least and it.of("Default") and it not in of_check]
    defaults = [f".{it.of('Sets')} = {it.of('Default')}" for it in numbers]
    defaults += [f".{it.of('Sets')} = {it.takes.words.index(it.of('Default'))}" for it in program.options
                 if it.takes.words and it.of("Sets")]
    bounds = [f"#define MAX_OF_{it.name[2:].upper()} {it.takes.most}" for it in of_check]
    known = [it for it in of_check if it.of("Default").isdecimal()]
    bounds += [f"#define DEFAULT_OF_{it.name[2:].upper()} {it.of('Default')}" for it in known]
    return "\n".join([
        f"/* {made}",
        "",
        "   Called: options.c includes it, in the one thread of asancol-run; no lock. */",
        "#ifndef ASANCOL_RUN_OPTION_TABLE_H",
        "#define ASANCOL_RUN_OPTION_TABLE_H",
        "",
        "/* clang-format off */",
        macro("OPTION_HELP", [json.dumps(f"{it}\n") for it in help_of(program)]),
        macro("OPTION_DEFAULTS", defaults, ","),
        macro("OPTION_ROWS", [row_of(it, name) for it in program.options for name in it.names], ","),
        *bounds,
        "",
        "#endif",
        "",
    ])


def help_header_of(program: Program, made: str) -> str:
    """Returns the header for command.c of the wrapper."""
    return "\n".join([
        f"/* {made}",
        "",
        "   Called: command.c includes it, in the one thread of the wrapper; no lock. */",
        "#ifndef ASANCOL_WRAPPER_HELP_H",
        "#define ASANCOL_WRAPPER_HELP_H",
        "",
        "/* clang-format off */",
        macro("WRAPPER_HELP", [json.dumps(f"{it}\n") for it in help_of(program)]),
        "#endif",
        "",
    ])


def literal(value: Union[str, Sequence[str]]) -> str:
    """Returns a value as Python has it."""
    return json.dumps(value) if isinstance(value, str) else f"({', '.join(map(json.dumps, value))})"


def python_of(program: Program) -> List[str]:
    """Returns the lines of Python for a program: its help, and what its options are."""
    options = program.options
    of_check = [it for it in options if it.of("Passed to") == "asancol check"]
    tables: Dict[str, Dict[str, Union[str, Sequence[str]]]] = {
        "OUTPUTS": {it.name: it.of("Written by") for it in options if it.of("Written by")},
        "SHORT": {it.letter: it.name for it in options if it.letter},
        "WORDS": {it.name: it.takes.words for it in options if it.takes.words},
        "RANGES": {it.name: it.takes[1:3] for it in options if it.takes.least and it not in of_check},
        "DEFAULTS": {it.name: it.of("Default") for it in options if it.of("Default") and it not in of_check},
    }
    lists = {
        "OF_CHECK": [it.name for it in of_check],
        "WITH_VALUE": [it.name for it in options if it.value],
        "SWITCHES": [it.name for it in options if not it.value],
    }
    lines = ['HELP = """\\', *help_of(program), '"""']
    for name, table in ((name, table) for name, table in tables.items() if table):
        lines += [f"{name} = {{", *(f"    {literal(key)}: {literal(value)}," for key, value in table.items()), "}"]
    for name, those in ((name, those) for name, those in lists.items() if those):
        lines += [f"{name} = (", *(f"    {literal(it)}," for it in those), ")"]
    return lines


def module_of(program: Program, made: str) -> str:
    """Returns the module for options.py."""
    return "\n".join([f'"""{made}"""', "", *python_of(program), ""])


def part_of(text: str, program: Program, made: str) -> str:
    """Returns a program of Python whose part from `# options:` to `# end of options` is written anew."""
    part = "\n".join([f"# options: {made}", *python_of(program), ""])
    return re.sub(r"^# options:(?:.*\n)*?(?=# end of options$)", lambda _: part, text, flags=re.M)
