#!/usr/bin/env python3
"""Looks over C, shell scripts and Python with the linters that are there, and over the tree with lint_tree.py.

usage: tools/lint.py [--base COMMIT] [TOOL..]

With names of tools, only these look. A line for each says what it found; one that is not there is said, and is no
failure. The last line is 'N passed, N failed, N skipped', and the status is 1 if one failed.

- clang-format: the lines of C that differ from COMMIT, which is where the branch left main if none is given, are laid
  out as .clang-format says.
- cppcheck: no fault that it knows, except what tools/cppcheck.txt lists.
- shellcheck: all shell scripts.
- pyflakes: all Python. ruff is taken for it if that is there.
- mypy: the types of all Python, as pyproject.toml asks.
- lint_tree: what lint_tree.py finds.
"""

import argparse
import os
import shutil
import subprocess
import sys
from concurrent.futures import ThreadPoolExecutor
from typing import Callable, Dict, Iterator, List, NamedTuple, Tuple

import gate
from files import TOP, files_of_tree, is_repository

# What begins so is Python that a shell starts without the user's settings.
STARTED_BY_SHELL = "#!/bin/sh\n''':'\n"
SHELLS = ("#!/bin/sh\n", "#!/usr/bin/env bash\n")
# The scripts of such a folder, and of those below it, import each other by their names alone.
FOLDERS = ("recorder/tests", "run/tests", "report/tests", "tests", "tools", "options", "packaging",
           "examples/farms/project", "examples/frameworks", "listen", "report", "testing")
CPPCHECK = ["--std=c11", "--enable=warning,performance,portability", "--quiet", "--inline-suppr", "--max-configs=1",
            "--suppressions-list=tools/cppcheck.txt", "--template={file}:{line}: {message} [{id}]",
            "-Irecorder", "-Irun", "-I."]


class Source(NamedTuple):
    path: str
    head: str  # its first characters

    @property
    def is_python(self) -> bool:
        return self.path.endswith(".py") or self.head.startswith(STARTED_BY_SHELL)

    @property
    def is_shell(self) -> bool:
        return not self.is_python and (self.path.endswith((".sh", ".bash")) or self.head.startswith(SHELLS))

    @property
    def names_its_shell(self) -> bool:
        return self.path.endswith(".bash") or self.head.startswith(SHELLS)


def source_of(path: str) -> Source:
    with open(f"{TOP}/{path}", encoding="utf-8", errors="replace") as file:
        return Source(path, file.read(64))


def lines_of(argv: List[str], **settings: str) -> List[str]:
    """Runs a linter, and returns the lines that it prints. A failure that it does not explain is one of them."""
    ran = subprocess.run(argv, cwd=TOP, env={**os.environ, **settings}, stdin=subprocess.DEVNULL,
                         stdout=subprocess.PIPE, stderr=subprocess.STDOUT, text=True, check=False)
    lines = [it for it in ran.stdout.splitlines() if it]
    return lines or ([f"{os.path.basename(argv[0])}: status {ran.returncode}"] if ran.returncode else [])


def by_clang_format(program: str, sources: List[Source], base: str) -> List[str]:
    argv = [program, "--diff", "--quiet", "--extensions", "c,h", base or gate.base_of_branch()]
    return [it for it in lines_of(argv) if not it.startswith(("no modified files", "clang-format did not modify"))]


def by_cppcheck(program: str, sources: List[Source], base: str) -> List[str]:
    files = [it.path for it in sources if it.path.endswith(".c")]
    return lines_of([program, *CPPCHECK, *(it for it in files if it.startswith(("common/", "recorder/", "run/"))
                                           and "/tests/" not in it)])


def by_shellcheck(program: str, sources: List[Source], base: str) -> List[str]:
    scripts = [it for it in sources if it.is_shell]
    named, others = ([it.path for it in scripts if it.names_its_shell is is_named] for is_named in (True, False))
    return [*lines_of([program, "--format=gcc", *named]), *lines_of([program, "--format=gcc", "--shell=sh", *others])]


def is_unmarked(line: str) -> bool:
    """Returns whether the line of source that a finding names is not marked as meant so, as ruff takes it too."""
    path, number = line.split(":")[:2]
    with open(f"{TOP}/{path}", encoding="utf-8") as file:
        return "# noqa" not in file.read().splitlines()[int(number) - 1]


def by_pyflakes(program: str, sources: List[Source], base: str) -> List[str]:
    files = [it.path for it in sources if it.is_python]
    if os.path.basename(program) == "ruff":
        return lines_of([program, "check", "--quiet", "--output-format=concise", *files])
    return list(filter(is_unmarked, lines_of([program, *files])))


def folder_of(path: str) -> str:
    """Returns the first of FOLDERS that a file is in, or nothing."""
    return next((it for it in FOLDERS if path.startswith(f"{it}/")), "")


def by_mypy(program: str, sources: List[Source], base: str) -> List[str]:
    groups: Dict[str, List[str]] = {}
    for source in sources:
        if source.is_python:
            groups.setdefault(folder_of(source.path), []).append(source.path)
    found = [f"{it}: it is in no folder that tools/lint.py knows" for it in groups.pop("", [])]
    for folder, files in groups.items():
        argv = [program, "--no-error-summary", f"--cache-dir=.mypy_cache/{folder}", *files]
        found += lines_of(argv, MYPYPATH=f"{folder}:report:tools:.")
    return [it for it in found if ": note: " not in it]


def by_lint_tree(program: str, sources: List[Source], base: str) -> List[str]:
    return [it for it in lines_of([program, "tools/lint_tree.py"]) if not it.startswith(("lint: ", "left out: "))]


def where(program: str) -> str:
    """Returns the path of a program, or nothing."""
    return shutil.which(program) or ""


Look = Callable[[str, List[Source], str], List[str]]
# Each tool by its name, the programs of which the first that is there is run, and how it is run.
TOOLS: List[Tuple[str, Tuple[str, ...], Look]] = [
    ("clang-format", ("git-clang-format",), by_clang_format),
    ("cppcheck", ("cppcheck",), by_cppcheck),
    ("shellcheck", ("shellcheck",), by_shellcheck),
    ("pyflakes", ("ruff", "pyflakes3", "pyflakes"), by_pyflakes),
    ("mypy", ("mypy",), by_mypy),
    ("lint_tree", (sys.executable,), by_lint_tree),
]


def findings(names: List[str], base: str) -> Iterator[Tuple[str, bool, List[str]]]:
    """Goes over the tools: the name, whether it is there, and what it found."""
    sources = [source_of(it) for it in files_of_tree()]
    with ThreadPoolExecutor(len(os.sched_getaffinity(0))) as pool:
        looking = []
        for name, programs, look in TOOLS:
            found = next((path for path in map(where, programs) if path), "")
            if name == "clang-format" and not is_repository():
                found = ""  # git says which lines a change has
            if not names or name in names:
                looking.append((name, pool.submit(look, found, sources, base) if found else None))
        for name, result in looking:
            yield name, result is not None, result.result() if result else []


def main() -> int:
    reader = argparse.ArgumentParser(description=__doc__, formatter_class=argparse.RawDescriptionHelpFormatter)
    reader.add_argument("--base", metavar="COMMIT", default="")
    reader.add_argument("tools", metavar="TOOL", nargs="*")
    request = reader.parse_args()
    unknown = set(request.tools) - {name for name, _, _ in TOOLS}
    if unknown:
        reader.error(f"there is no tool {min(unknown)}")
    base = gate.commit_of(request.base) if request.base else ""
    passed = failed = skipped = 0
    for name, is_there, lines in findings(request.tools, base):
        print("\n".join([*lines, f"{name}: {len(lines) or 'nothing'} found" if is_there else f"not there: {name}"]),
              flush=True)
        passed, failed, skipped = passed + (is_there and not lines), failed + bool(lines), skipped + (not is_there)
    print(f"{passed} passed, {failed} failed, {skipped} skipped")
    return 1 if failed else 0


if __name__ == "__main__":
    sys.exit(main())
