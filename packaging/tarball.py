#!/usr/bin/env python3
"""Makes an archive of the build for systems without Debian's packages: asancol-VERSION-x86_64.tar.xz.

usage: packaging/tarball.py [FOLDER]

It has what `make install` installs, stripped, except systemd's units, and works wherever it is unpacked: programs find
each other by their places. No root is needed. As the package of Debian, it is always the same for the same programs and
commit. It is made at the top of the tree, or in FOLDER.
"""

import os
import shutil
import subprocess
import sys
import tempfile

from deb import TOP, install, strip, text_of, time_of_sources


def main(folder_of_archive: str = TOP) -> int:
    os.umask(0o022)
    name = f"asancol-{text_of(f'{TOP}/VERSION').strip()}"
    archive = f"{os.path.abspath(folder_of_archive)}/{name}-x86_64.tar.xz"
    with tempfile.TemporaryDirectory(prefix="asancol-tarball-") as root:
        install(root)
        strip(root)
        shutil.rmtree(f"{root}/usr/lib/systemd")
        os.rename(f"{root}/usr", f"{root}/{name}")
        subprocess.run(["tar", "--create", "--xz", "--sort=name", "--format=gnu", "--owner=0", "--group=0",
                        "--numeric-owner", f"--mtime=@{time_of_sources()}", f"--file={archive}", "-C", root, name],
                       check=True)
    print(os.path.basename(archive))
    return 0


if __name__ == "__main__":
    sys.exit(main(*sys.argv[1:2]))
