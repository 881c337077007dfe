#!/usr/bin/env python3
"""Generates from the tables of options beside it: completions, lists of manual pages, and code; the tables of
docs/ASAN.md, of common/asan_options.def; and a module of asancol-report, of common/shades.def.

usage: options/make.py [--check [ASANCOL]]

With --check nothing is written: a line is printed for each file that is not what would be written, and for each option
of ASANCOL whose help is not that of the table. The status is 1 if there is one. table.py says what a table has.

The generated files are committed: a build needs no Python, and a change of a table shows its effects.
The options of asancol are read by a proved crate, which has its help too: both are compared, and not made.
"""

from __future__ import annotations

import os
import re
import subprocess
import sys
from typing import Dict, Iterator, List

import asan
import completions
import pages
import shades
import sources
import table

OPTIONS = os.path.dirname(os.path.abspath(__file__))
TOP = os.path.dirname(OPTIONS)
TABLES = ("asancol", "asancol-run", "asancol-cc", "asancol-listen")


def text_of(path: str) -> str:
    try:
        with open(f"{TOP}/{path}", encoding="utf-8") as file:
            return file.read()
    except FileNotFoundError:
        return ""


def files_of(name: str, programs: List[table.Program]) -> Dict[str, str]:
    """Returns the files generated from a table, by path. The page of a wrapper of a second compiler leads to that of
    the first."""
    made = f"Made by `make options` from options/{name}.options."
    files: Dict[str, str] = {}
    own = [it for it in programs if " " not in it.name]
    for program in own:
        first = own[0].name if "Wraps" in program.keys else program.name
        commands = [it for it in programs if it.name.startswith(f"{program.name} ")]
        for shell in completions.SHELLS if "Wraps" not in program.keys else ():
            files[f"completions/{program.name}.{shell}"] = completions.completion_of(shell, program, commands, made)
        path = f"man/{program.name}.1"
        if first == program.name:
            files[path] = pages.page_of(text_of(path), [program, *commands])
        else:
            files[path] = f".so man1/{first}.1\n"
        if program.name == "asancol-run":
            files["run/option_table.h"] = sources.header_of(program, made)
        if program.name == "asancol-cc":
            files["recorder/wrapper/help.h"] = sources.help_header_of(program, made)
        if program.name == "asancol-report":
            files["report/asancol_report/option_table.py"] = sources.module_of(program, made)
        if program.name == "asancol-listen":
            path = "listen/asancol-listen"
            files[path] = sources.part_of(text_of(path), program, made)
    return files


def differences(asancol: str, programs: List[table.Program]) -> Iterator[str]:
    """Goes over the options of asancol whose help, which is not made, has not the line of the table at its start."""
    for program in (it for it in programs if it.table == "asancol" and it.groups):
        argv = [asancol, *program.name.split()[1:], "--help"]
        text = subprocess.run(argv, stdout=subprocess.PIPE, text=True, check=True).stdout
        said: Dict[str, str] = dict(re.findall(r"^ +(?:-\w, )?(--[\w-]+)(?: <\w+>)? {2,}(.*)$", text, re.M))
        wanted = {it.name: it for it in program.shown}
        for name in sorted({*said, *wanted}):
            it = wanted.get(name)
            front = ", ".join(filter(None, (it.of("Help"), it.range))) if it else ""
            end = f" [default: {it.of('Default')}]" if it and it.of("Default") else ""
            if not it or not said.get(name, "").startswith(front) or not said[name].endswith(end):
                yield f"options/asancol.options:1: {program.name} {name}: {front}{end}; its help: {said.get(name)}"


def main(argv: List[str]) -> int:
    if len(argv) > 2 or argv[:1] not in ([], ["--check"]):
        print((__doc__ or "").split("\n\n")[1], file=sys.stderr)
        return 2
    programs: List[table.Program] = []
    for name in TABLES:
        try:
            programs += table.read(f"{OPTIONS}/{name}.options", name, programs)
        except table.Wrong as error:
            raise table.Wrong(f"{name}.options: {error}") from None
    files: Dict[str, str] = {}
    for name in TABLES:
        files.update(files_of(name, [it for it in programs if it.table == name]))
    files[asan.PAGE] = asan.page_of(text_of(asan.PAGE), text_of(asan.TABLE))
    files[shades.MODULE] = shades.module_of(text_of(shades.TABLE))
    others = [path for path, text in files.items() if text != text_of(path)]
    if not argv:
        for path in others:
            with open(f"{TOP}/{path}", "w", encoding="utf-8") as file:
                file.write(files[path])
        return 0
    found = [f"{path}:1: it is not what options/ has: `make options` writes it anew" for path in others]
    found += [line for asancol in argv[1:] for line in differences(asancol, programs)]
    print("\n".join(found), end="\n" if found else "")
    return 1 if found else 0


if __name__ == "__main__":
    try:
        sys.exit(main(sys.argv[1:]))
    except table.Wrong as error:
        sys.exit(f"options/make.py: {error}")
