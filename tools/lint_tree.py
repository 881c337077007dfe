#!/usr/bin/env python3
"""Looks over the tree, in seconds, for what no proof and no test sees.

usage: tools/lint_tree.py

- No line of a crate's proofs has more than 120 columns, and none of its code and definitions more
  than 100. Imports in code and definitions may be longer.
- No line of C, C++ or Python has more than 120 bytes.
- Each file is as `rt fmt` lays it out. Without `rt` that is left out, and it says so.
- No file is a link: `rt ci` takes no tree with one in it.
- No test waits without a limit (`waits.py`).
- No word stands there for which the field has another (`words.py`).
- Each head of a C file says who calls, in which thread, in a handler or not, and under which lock (`heads.py`).
- Headers of the recorder name the files that call their functions (`callers.py`).
- Each edit of a mutant can be made: what it takes away stands once in its file.
- Each lemma right in a folder `proofs` is cited. `Examples` and `Refuted` are lists of
  examples, and are left out.
- Each name that a file imports is used there (`names.py`). `rt tidy` drops those that are not; it
  proves the crate again, so this does not call it.
- Each function, clause, file, test and target of make that a page names is there (`pages.py`).
- No two tests have one name: of the rows, of the crates, and of `runs.py` and `failures.py`.
- The golden rows that MODEL.md shows, the stored traces and the lemmas of `Examples` are what
  the rows of their names say (`testing/golden.py`).
- What a crate is for stands on its own page as in the tables of ARCHITECTURE.md and crates/README.md.
- The files generated from the tables in `options` are as `make options` would write them.
- The program says the release that VERSION says: it can't read the file, since it is proved.

Each finding is a line `FILE:LINE: what`. The last line counts them, and the status is 1 if there are
any.
"""

import os
import re
import shutil
import subprocess
import sys
from typing import Iterator, List, Tuple

sys.path.insert(0, f"{os.path.dirname(os.path.realpath(__file__))}/..")  # where `testing` is

import bodies
import callers
import heads
import names
import pages
import waits
import words
from files import TOP, files_of_tree
from testing import golden

Finding = Tuple[str, int, str]


def width_of(path: str) -> int:
    """Returns how many columns a line of a file may have, or 0 where that is not asked."""
    parts = path.split("/")
    if len(parts) < 4 or parts[0] != "crates" or not path.endswith((".rt", ".antt")):
        return 0
    return 120 if parts[2] == "proofs" else 100


def long_lines(files: List[str]) -> Iterator[Finding]:
    for path in files:
        width = width_of(path)
        if not width:
            continue
        with open(f"{TOP}/{path}", encoding="utf-8") as file:
            for number, line in enumerate(file, 1):
                columns = len(line.rstrip("\n"))
                if columns > width and (width == 120 or "use Rattle" not in line):
                    yield path, number, f"{columns} columns, and at most {width} are allowed"


def long_lines_of_others(files: List[str]) -> Iterator[Finding]:
    for path in files:
        if path.startswith("crates/") or not path.endswith((".c", ".cpp", ".def", ".h", ".py")):
            continue
        with open(f"{TOP}/{path}", "rb") as file:
            for number, line in enumerate(file, 1):
                count = len(line.rstrip(b"\n"))
                if count > 120:
                    yield path, number, f"{count} bytes, and at most 120 are allowed"


def bad_layouts(files: List[str]) -> Iterator[Finding]:
    """Goes over the files that `rt fmt` would change, or cannot read. The toolchain's `rattle`,
    which lies beside `rt`, finds them."""
    rt = shutil.which("rt")
    if not rt:
        print("left out: the layout of Rattle, since the toolchain's command rt is not there")
        return
    rattle = os.path.join(os.path.dirname(os.path.realpath(rt)), "rattle")
    sources = [it for it in files if width_of(it)]
    if not os.path.isfile(rattle):
        yield "crates", 1, "no rattle beside rt: the layout was not looked at"
        return
    argv = [rattle, "fmt", "--check", *sources]
    ran = subprocess.run(argv, cwd=TOP, text=True, stdout=subprocess.PIPE, stderr=subprocess.STDOUT)
    found = re.findall(r"^(\S+?):? (?:is not in the layout|it does not parse)", ran.stdout, re.M)
    for path in found:
        yield path, 1, "rt fmt would change it, or cannot read it"
    if ran.returncode and not found:
        yield "crates", 1, f"rattle fmt --check: status {ran.returncode}: {ran.stdout[:200]}"


def links(files: List[str]) -> Iterator[Finding]:
    for path in files:
        if os.path.islink(f"{TOP}/{path}"):
            yield path, 1, "it is a link, and rt ci takes no tree with one in it"


def bad_edits(files: List[str]) -> Iterator[Finding]:
    for path in files:
        crate, mutants, name = path.rpartition("/mutants/")
        if crate.startswith("crates/") and mutants and not name.endswith(".md"):
            try:
                bodies.read_edit(f"{TOP}/{path}", f"{TOP}/{crate}")
            except bodies.BadEdit as bad:
                yield path, 1, str(bad)


def sources_of(files: List[str]) -> List[names.Source]:
    found = []
    for path in files:
        if path.startswith("crates/") and path.endswith((".rt", ".antt")):
            with open(f"{TOP}/{path}", encoding="utf-8") as file:
                found.append(names.Source(path, file.read()))
    return found


def other_release() -> Iterator[Finding]:
    path = "crates/asan_request/src/arguments.rt"
    with open(f"{TOP}/VERSION", encoding="utf-8") as file:
        wanted = f'const RELEASE: &str = "{file.read().strip()}";'
    with open(f"{TOP}/{path}", encoding="utf-8") as file:
        if wanted not in file.read():
            yield path, 1, f"VERSION says: {wanted}"


def other_options() -> Iterator[Finding]:
    argv = [f"{TOP}/options/make.py", "--check"]
    ran = subprocess.run(argv, stdout=subprocess.PIPE, text=True, check=False)
    for line in ran.stdout.splitlines():
        path, number, what = line.split(":", 2)
        yield path, int(number), what.strip()
    if ran.returncode not in (0, 1):
        yield "options/make.py", 1, f"status {ran.returncode}"


def other_summaries() -> Iterator[Finding]:
    """Goes over the crates' pages whose first sentence is not the crate's row of a table of crates."""
    for page in ("docs/inside/ARCHITECTURE.md", "crates/README.md"):
        with open(f"{TOP}/{page}", encoding="utf-8") as file:
            rows = re.findall(r"^\| \[`\w+`\]\((?:\.\./\.\./crates/)?(\w+)/README\.md\) \| (.*) \|$", file.read(), re.M)
        for crate, does in rows:
            path = f"crates/{crate}/README.md"
            with open(f"{TOP}/{path}", encoding="utf-8") as file:
                first = file.read().split("\n\n")[1].replace("\n", " ")
            if first != f"{does[0].upper()}{does[1:]}.":
                yield path, 3, f"{page} says: {does}"


def all_tests(sources: List[names.Source], rows: List[golden.Row]) -> Iterator[names.Test]:
    """Goes over the golden rows, the tests of the crates and the runs of built programs."""
    yield from (names.Test(row.name, row.path, row.line) for row in rows)
    yield from names.tests_of(sources)
    runs = [f"tests/runs/{it}" for it in sorted(os.listdir(f"{TOP}/tests/runs")) if it.endswith(".py")]
    for path in ("tests/failures.py", *runs):
        with open(f"{TOP}/{path}", encoding="utf-8") as file:
            yield from names.tests_in(path, file.read(), names.CASE)


def findings() -> Iterator[Finding]:
    files = files_of_tree()
    sources = sources_of(files)
    yield from long_lines(files)
    yield from long_lines_of_others(files)
    yield from bad_layouts(files)
    yield from links(files)
    yield from waits.findings(files)
    yield from words.findings(files)
    yield from heads.findings(files)
    yield from callers.findings(files)
    yield from bad_edits(files)
    yield from other_release()
    yield from other_options()
    yield from other_summaries()
    yield from names.uncited_lemmas(sources)
    yield from names.unused_imports(sources)
    rows = golden.rows()
    known = golden.by_name(rows)
    yield from names.repeated_tests(all_tests(sources, rows))
    yield from golden.other_lemmas(known)
    yield from golden.other_traces(known)
    yield from pages.findings(pages.Tree(TOP, files), known)


def main() -> int:
    count = 0
    for path, line, what in findings():
        print(f"{path}:{line}: {what}")
        count += 1
    print(f"lint: {count} findings" if count else "lint: nothing found")
    return 1 if count else 0


if __name__ == "__main__":
    sys.exit(main())
