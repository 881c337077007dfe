#!/usr/bin/env python3
"""Makes a release of the commit: its archives, its package and its tag.

The release is the one that VERSION says, and its tag is `v` with that. It is made if nothing differs from the commit,
CHANGELOG.md has a section for it, there is no such tag yet, and lint_tree.py finds nothing. First come the archives and
the package, by `make dist deb tarball`: what can't be packaged has no tag. At the end the section is printed. Nothing
is pushed.
"""

import argparse
import re
import subprocess
import sys
from typing import NoReturn

from dist import TOP, git


def fail(why: str) -> NoReturn:
    sys.exit(f"release.py: {why}")


def text_of(path: str) -> str:
    with open(f"{TOP}/{path}", encoding="utf-8") as file:
        return file.read()


def section_of(version: str, changelog: str) -> str:
    """Returns what a changelog says of a version, without its heading, or nothing."""
    for section in re.split(r"^## ", changelog, flags=re.M)[1:]:
        heading, _, text = section.partition("\n")
        if re.fullmatch(rf"\[?{re.escape(version)}\]?( .*)?", heading):
            return text.strip()
    return ""


def expect_ready(version: str, section: str) -> None:
    """Ends this if something is against the release."""
    changed = git("status", "--porcelain").decode()
    if changed:
        fail(f"this differs from the commit:\n{changed}")
    if not section:
        fail(f"CHANGELOG.md has no section for {version}: give Unreleased its number")
    if git("tag", "--list", f"v{version}"):
        fail(f"the tag v{version} is there: a release is made once")
    if subprocess.run([sys.executable, f"{TOP}/tools/lint_tree.py"], cwd=TOP, check=False).returncode:
        fail("mend what lint_tree.py has found")


def main() -> int:
    usage = "packaging/release.py"
    argparse.ArgumentParser(usage=usage, description=__doc__,
                            formatter_class=argparse.RawDescriptionHelpFormatter).parse_args()
    version = text_of("VERSION").strip()
    section = section_of(version, text_of("CHANGELOG.md"))
    expect_ready(version, section)
    if subprocess.run(["make", "-s", "dist", "deb", "tarball"], cwd=TOP, check=False).returncode:
        fail("the archive and the package can't be made, so there is no tag")
    git("tag", "--annotate", f"v{version}", "--message", f"asancol {version}")
    print(f"tag v{version}: git push origin v{version} publishes it\n\n{section}")
    return 0


if __name__ == "__main__":
    sys.exit(main())
