"""Tests of what maintainers run: the linters, and a release. Each has a clone of the tree, as it is committed."""

import os
import sys
from typing import Callable, List, Tuple

import waits
from testing import TOP, Ran, environment, expect, expect_in, expect_not_in, write_text
from testing.programs import ran_of, run

# Who commits in a clone.
NAMED = {f"GIT_{who}_{what}": "test" for who in ("AUTHOR", "COMMITTER") for what in ("NAME", "EMAIL")}

# It writes down what it is asked to make. The file `fails` beside it makes it fail.
MAKE = '#!/bin/sh\necho "$*" >> "${0%/*}/asked"\n[ ! -e "${0%/*}/fails" ]\n'

BADLY_LAID_OUT = "int  planted( void );\n"
UNUSED = "import os\n"
UNQUOTED = "#!/bin/sh\necho $1\n"


def run_in(folder: str, *argv: str, **settings: str) -> Ran:
    return ran_of(run(list(argv), folder, **NAMED, **settings))


def clone(folder: str) -> str:
    """Clones the tree, and returns where."""
    path = f"{folder}/clone"
    expect(run_in(folder, "git", "clone", "-q", TOP, path).status, 0, "git clone")
    expect(run_in(path, "git", "switch", "-q", "-C", "main").status, 0, "git switch")
    return path


def commit(path: str) -> None:
    expect(run_in(path, "git", "commit", "-q", "-a", "-m", "Change it").status, 0, "git commit")


def linters_find_what_is_planted(_: str, folder: str) -> None:
    """The layout is asked for on changed lines alone, and a tool that is not there is no failure."""
    path = clone(folder)
    tools = ("clang-format", "shellcheck", "pyflakes")
    ran = run_in(path, sys.executable, "tools/lint.py", "--base", "HEAD", *tools)
    expect((ran.status, ran.out.splitlines()[-1]), (0, "3 passed, 0 failed, 0 skipped"), ran.out)
    with open(f"{path}/run/say.h", "a", encoding="utf-8") as file:
        file.write(BADLY_LAID_OUT)
    write_text(f"{path}/options/planted.py", UNUSED)
    write_text(f"{path}/packaging/planted", UNQUOTED)
    ran = run_in(path, sys.executable, "tools/lint.py", "--base", "HEAD", *tools)
    expect((ran.status, ran.out.splitlines()[-1]), (1, "0 passed, 3 failed, 0 skipped"), ran.out)
    expect_in(ran.out, "+int planted(void);", "packaging/planted:2:", "options/planted.py:1:", "pyflakes: 1 found")
    ran = run_in(path, sys.executable, "tools/lint.py", *tools, PATH=f"{folder}/none")
    none = "".join(f"not there: {it}\n" for it in tools)
    expect((ran.status, ran.out), (0, f"{none}0 passed, 0 failed, 3 skipped\n"), ran.err)


def waits_without_limits_are_found(_: str, __: str) -> None:
    """Where a test waits for ever, it has a line; where it has a limit, or a text says so, it has none."""
    planted = """import subprocess, threading
said = subprocess.run(["true"])
with subprocess.Popen(["true"]) as started: pass
peer, _ = listening.accept()
thread = threading.Thread(target=print)
thread = threading.Thread(target=print, daemon=True)
said, peer = call(["true"]), accept(listening)
text = "subprocess.run([])"
"""
    expect(sorted(line for line, _ in waits.waits_in(planted)), [2, 3, 4, 5], "lines")


def release(path: str, folder: str) -> Ran:
    """Makes a release of a clone. What it asks make for is only written down."""
    programs = f"{folder}/bin"
    os.makedirs(programs, exist_ok=True)
    write_text(f"{programs}/make", MAKE, 0o755)
    return run_in(path, sys.executable, "packaging/release.py", PATH=f"{programs}:{environment()['PATH']}")


def expect_refused(path: str, folder: str, why: str) -> None:
    tags = run_in(path, "git", "tag").out
    ran = release(path, folder)
    expect(ran.status, 1, why)
    expect_in(ran.err, why)
    expect((run_in(path, "git", "tag").out, os.path.exists(f"{folder}/bin/asked")), (tags, False), f"{why}: made")


def releases_are_made_once(_: str, folder: str) -> None:
    """A release needs a clean tree, a section and a number that has no tag, and is made of what can be packaged."""
    path = clone(folder)
    for tag in run_in(path, "git", "tag").out.split():
        run_in(path, "git", "tag", "-d", tag)
    write_text(f"{path}/VERSION", "7.8.9\n")
    expect_refused(path, folder, "this differs from the commit:\n M VERSION")
    with open(f"{path}/crates/asan_request/src/arguments.rt", encoding="utf-8") as file:
        text = file.read()
    with open(f"{TOP}/VERSION", encoding="utf-8") as file:
        now = file.read().strip()
    write_text(f"{path}/crates/asan_request/src/arguments.rt", text.replace(f'"{now}"', '"7.8.9"'))
    commit(path)
    expect_refused(path, folder, "CHANGELOG.md has no section for 7.8.9")
    write_text(f"{path}/CHANGELOG.md", "# Changelog\n\n## 7.8.9 (today)\n\n- One.\n\n## 7.8.8\n\n- Other.\n")
    commit(path)
    write_text(f"{folder}/bin/fails", "")
    ran = release(path, folder)
    expect((ran.status, run_in(path, "git", "tag").out), (1, ""), "what can't be packaged")
    expect_in(ran.err, "so there is no tag")
    os.remove(f"{folder}/bin/fails")
    os.remove(f"{folder}/bin/asked")
    ran = release(path, folder)
    expect(ran.status, 0, ran.err)
    expect_in(ran.out, "tag v7.8.9", "- One.")
    expect_not_in(ran.out, "Other")
    expect(run_in(path, "git", "rev-list", "-1", "v7.8.9").out, run_in(path, "git", "rev-parse", "HEAD").out, "its tag")
    with open(f"{folder}/bin/asked", encoding="utf-8") as file:
        expect(file.read(), "-s dist deb tarball\n", "what was made")
    os.remove(f"{folder}/bin/asked")
    expect_refused(path, folder, "the tag v7.8.9 is there")


# Name, what it does with a built asancol and a folder for itself, and the programs that it needs.
TESTS: List[Tuple[str, Callable[[str, str], None], Tuple[str, ...]]] = [
    ("lint: waits", waits_without_limits_are_found, ()),
    ("lint", linters_find_what_is_planted, ("git", "git-clang-format", "shellcheck", "pyflakes3")),
    ("release: made once", releases_are_made_once, ("git",)),
]
