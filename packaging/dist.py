#!/usr/bin/env python3
"""Makes an archive of the sources as they are committed: asancol-VERSION.tar.gz.

usage: packaging/dist.py [FOLDER]

The archive of a commit is always the same, byte for byte: its files have the time of the commit, belong to root, and
are in the order of git. After them comes what `make docs` makes of them. The archive is made at the top of the tree, or
in FOLDER. The line that is printed says which commit it has.
"""

import copy
import gzip
import io
import os
import subprocess
import sys
import tarfile
import tempfile

TOP = os.path.dirname(os.path.dirname(os.path.abspath(__file__)))
# A file generated from the sources, and a page that is committed beside it.
MADE, BESIDE = "docs/CALLS.md", "docs/FORMAT.md"


def git(*argv: str) -> bytes:
    """Returns what a git command prints, and ends this one if git fails. No setting of the user's counts."""
    settings = ["-c", "tar.umask=0022", "-c", "core.attributesFile=/dev/null", "-c", "core.autocrlf=false"]
    ran = subprocess.run(["git", *settings, *argv], cwd=TOP, stdout=subprocess.PIPE, check=False)
    if ran.returncode:
        sys.exit("dist.py: the archive is made from the repository, by git")
    return ran.stdout


def with_made(archive: bytes, name: str) -> bytes:
    """Returns an archive of the sources with the page that is made of them: of these, and not of what lies here."""
    file = io.BytesIO(archive)
    with tempfile.TemporaryDirectory(prefix="asancol-archive-") as folder:
        subprocess.run(["tar", "-x", "-C", folder], input=archive, check=True)
        subprocess.run(["make", "-s", "docs"], cwd=f"{folder}/{name}", stdout=subprocess.DEVNULL, check=True)
        with open(f"{folder}/{name}/{MADE}", "rb") as page, tarfile.open(fileobj=file, mode="a") as members:
            entry = copy.copy(members.getmember(f"{name}/{BESIDE}"))
            entry.name, entry.size = f"{name}/{MADE}", os.path.getsize(page.name)
            members.addfile(entry, page)
    return file.getvalue()


def main(folder: str = TOP) -> int:
    commit = git("rev-parse", "--verify", "HEAD").decode().strip()
    name = f"asancol-{git('show', f'{commit}:VERSION').decode().strip()}"
    archive = git("archive", "--format=tar", f"--prefix={name}/", commit)
    with open(f"{folder}/{name}.tar.gz", "wb") as file, gzip.GzipFile("", "wb", 9, file, 0) as zipped:
        zipped.write(with_made(archive, name))
    changed = " (what is not committed is not in it)" if git("status", "--porcelain") else ""
    print(f"{name}.tar.gz: commit {commit}{changed}")
    return 0


if __name__ == "__main__":
    sys.exit(main(*sys.argv[1:2]))
