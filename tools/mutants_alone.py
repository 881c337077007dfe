#!/usr/bin/env python3
"""Has the toolchain try each mutant by itself.

usage: tools/mutants_alone.py [--anew] [CRATE..]

It is the cross-check of `mutants.py`, which tries several in one check by code of this repository:
here `rt must-fail` reads the same edits and reports refusals. It takes edits from folders named
`must-fail`, so this runs it in a copy of the repository, in a temporary folder, where each folder
`mutants` has that name. It begins with what checks kept here, and takes two hours of one processor
for all crates. What it has refused is kept on the machine, by the toolchain; `--anew` tries all.
The last line is `N passed, M failed`, of all edits that are there.
"""

import os
import re
import shutil
import subprocess
import sys
import tempfile
from typing import List

import gate
from edits import edit_files
from gate import TOP

REFUSED = re.compile(r"rt: must-fail \S+: refused, as it must be")


def copy_crates(to: str) -> None:
    """Copies the crates, with their mutants where the toolchain takes them from."""
    for name in ("crates.txt", "HANDLES"):
        shutil.copy(f"{TOP}/{name}", to)
    shutil.copytree(f"{TOP}/crates", f"{to}/crates", ignore=shutil.ignore_patterns("out"))
    for name in os.listdir(f"{to}/crates"):
        if os.path.isdir(f"{to}/crates/{name}/mutants"):
            os.rename(f"{to}/crates/{name}/mutants", f"{to}/crates/{name}/must-fail")


def tried(argv: List[str], names: List[str]) -> int:
    """Runs the toolchain's command, passes on what it prints, and returns how many are refused."""
    refused = 0
    with tempfile.TemporaryDirectory(prefix="asancol-alone-") as room:
        copy_crates(room)
        command = ["rt", "must-fail", *argv, *names]
        with subprocess.Popen(command, cwd=room, stdout=subprocess.PIPE, text=True) as ran:
            for line in ran.stdout or ():
                print(line, end="", flush=True)
                refused += bool(REFUSED.match(line))
    if ran.returncode not in (0, 1):
        print(f"rt must-fail ended with status {ran.returncode}")
    return refused


def main(argv: List[str]) -> int:
    flags = [it for it in argv if it.startswith("-")]
    names = [it for it in argv if it not in flags]
    listed = gate.crates_listed()
    if any(it != "--anew" for it in flags) or any(it not in listed for it in names):
        print(__doc__.split("\n\n")[1], file=sys.stderr)
        return 2
    names = [it for it in names or listed if edit_files(f"{TOP}/crates/{it}")]
    count = sum(len(edit_files(f"{TOP}/crates/{it}")) for it in names)
    refused = tried(flags, names)
    print(f"{refused} passed, {count - refused} failed")
    return 0 if refused == count > 0 else 1


if __name__ == "__main__":
    sys.exit(main(sys.argv[1:]))
