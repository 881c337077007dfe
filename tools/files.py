"""The files of the tree: those that git knows or would add. In an archive of the sources there is no git, and they are
those that no line of .gitignore names."""

import fnmatch
import os
import subprocess
from typing import Iterator, List

TOP = os.path.dirname(os.path.dirname(os.path.abspath(__file__)))


def is_repository() -> bool:
    """Returns whether the tree is a repository, and not only inside one."""
    argv = ["git", "rev-parse", "--show-toplevel"]
    try:
        ran = subprocess.run(
            argv, cwd=TOP, stdout=subprocess.PIPE, stderr=subprocess.DEVNULL, text=True, check=False
        )
    except FileNotFoundError:
        return False
    return ran.returncode == 0 and os.path.realpath(ran.stdout.rstrip("\n")) == os.path.realpath(TOP)


def is_ignored(path: str, patterns: List[str]) -> bool:
    """Returns whether a line of .gitignore names this path from the top. That of a folder ends in `/`. A line that
    begins with `/` is a path from the top, and any other one is a name."""
    name = f"{os.path.basename(path.rstrip('/'))}{'/' if path.endswith('/') else ''}"
    for pattern in patterns:
        asked, wanted = (f"/{path}", pattern) if pattern.startswith("/") else (name, pattern)
        if fnmatch.fnmatchcase(asked if wanted.endswith("/") else asked.rstrip("/"), wanted):
            return True
    return False


def files_beside_gitignore() -> Iterator[str]:
    with open(f"{TOP}/.gitignore", encoding="utf-8") as lines:
        patterns = lines.read().split()
    for at, folders, names in os.walk(TOP):
        front = "" if at == TOP else f"{os.path.relpath(at, TOP)}/"
        folders[:] = [it for it in folders if it != ".git" and not is_ignored(f"{front}{it}/", patterns)]
        yield from (f"{front}{it}" for it in names if it != ".git" and not is_ignored(f"{front}{it}", patterns))


def files_of_tree() -> List[str]:
    """Returns their paths from the top, sorted."""
    if not is_repository():
        return sorted(files_beside_gitignore())
    argv = ["git", "ls-files", "--cached", "--others", "--exclude-standard"]
    ran = subprocess.run(argv, cwd=TOP, stdout=subprocess.PIPE, text=True, check=True)
    return sorted(it for it in set(ran.stdout.splitlines()) if os.path.lexists(f"{TOP}/{it}"))
