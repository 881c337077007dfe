#!/usr/bin/env python3
"""Makes a package for Debian from the build: asancol_VERSION-1_amd64.deb.

usage: packaging/deb.py [FOLDER]

It has what `make install` installs, stripped, and the documents. No root is needed. The package of the same programs
and commit is always the same, byte for byte: its files belong to root and have the time that SOURCE_DATE_EPOCH says, or
else that of the commit, or, in an archive of the sources, that of VERSION. It is made at the top of the tree, or in
FOLDER.
"""

import email.utils
import glob
import gzip
import os
import re
import shutil
import subprocess
import sys
import tempfile
from typing import Dict, List

TOP = os.path.dirname(os.path.dirname(os.path.abspath(__file__)))
DEBIAN = f"{TOP}/packaging/debian"
REVISION = "1"
PROGRAMS = ("asancol", "asancol-cc", "asancol-run")
PRELOADED = "usr/lib/asancol/libasancol_preload.so"


def output_of(argv: List[str], folder: str = TOP) -> str:
    ran = subprocess.run(argv, cwd=folder, stdout=subprocess.PIPE, text=True, check=True)
    return ran.stdout


def text_of(path: str) -> str:
    with open(path, encoding="utf-8") as file:
        return file.read()


def write(path: str, text: str, mode: int = 0o644) -> None:
    with open(path, "w", encoding="utf-8") as file:
        file.write(text)
    os.chmod(path, mode)


def write_zipped(path: str, text: bytes) -> None:
    with open(path, "wb") as file, gzip.GzipFile("", "wb", 9, file, 0) as zipped:
        zipped.write(text)
    os.chmod(path, 0o644)


def time_of_sources() -> int:
    """Returns the time that all files of the package have, in seconds since 1970."""
    said = os.environ.get("SOURCE_DATE_EPOCH")
    if said:
        return int(said)
    if os.path.exists(f"{TOP}/.git") and shutil.which("git"):
        return int(output_of(["git", "log", "-1", "--format=%ct"]))
    return int(os.stat(f"{TOP}/VERSION").st_mtime)


def install(root: str) -> None:
    argv = ["make", "-s", "install", "PREFIX=/usr", f"DESTDIR={root}"]
    subprocess.run([*argv, "ZSH_FUNCTIONS=/usr/share/zsh/vendor-completions"], cwd=TOP, check=True)


def strip(root: str) -> None:
    """Removes sections for debuggers, and those that differ from build to build. Linkers need the archives' names."""
    for name in PROGRAMS:
        subprocess.run(["strip", "--remove-section=.comment", f"{root}/usr/bin/{name}"], check=True)
    for archive in glob.glob(f"{root}/usr/lib/asancol/*.a"):
        argv = ["strip", "--strip-debug", "--enable-deterministic-archives", "--remove-section=.comment"]
        subprocess.run([*argv, archive], check=True)
    for shared in glob.glob(f"{root}/usr/lib/asancol/*.so"):
        subprocess.run(["strip", "--strip-unneeded", "--remove-section=.comment", shared], check=True)


def zip_pages(root: str) -> None:
    """Zips the pages. One that only names another page becomes a link to that."""
    for path in glob.glob(f"{root}/usr/share/man/man*/*"):
        with open(path, "rb") as file:
            text = file.read()
        os.remove(path)
        if text.startswith(b".so "):
            other = os.path.basename(text.split()[1].decode())
            os.symlink(f"{other}.gz", f"{path}.gz")
        else:
            write_zipped(f"{path}.gz", text)


def add_documents(root: str, version: str, maintainer: str, time: int) -> None:
    """Adds to the installed pages what Debian asks for: the two changelogs, zipped, and the copyright."""
    folder = f"{root}/usr/share/doc/asancol"
    os.remove(f"{folder}/CHANGELOG.md")
    for page in glob.glob(f"{folder}/**/*.md", recursive=True):
        write(page, text_of(page).replace("CHANGELOG.md)", "changelog.gz)"))
    with open(f"{TOP}/CHANGELOG.md", "rb") as file:
        write_zipped(f"{folder}/changelog.gz", file.read())
    date = email.utils.formatdate(time)
    entry = f"asancol ({version}) unstable; urgency=low\n\n  * As changelog.gz says.\n\n -- {maintainer}  {date}\n"
    write_zipped(f"{folder}/changelog.Debian.gz", entry.encode())
    shutil.copy(f"{DEBIAN}/copyright", folder)
    os.makedirs(f"{root}/usr/share/lintian/overrides")
    # There are objects for 32-bit programs.
    write(f"{root}/usr/share/lintian/overrides/asancol", "asancol: binary-from-other-architecture *for-i*86/*\n")


def libraries_of(root: str) -> str:
    """Returns the packages with the libraries that the programs need. The root is `debian/asancol` in some folder."""
    folder = os.path.dirname(root)
    write(f"{folder}/control", "Source: asancol\n\nPackage: asancol\nArchitecture: amd64\n")
    files = [*(f"usr/bin/{name}" for name in PROGRAMS), PRELOADED]
    found = output_of(["dpkg-shlibdeps", "-O", *(f"-e{root}/{file}" for file in files)], f"{folder}/..")
    return re.sub(r"^shlibs:Depends=", "", found.strip())


def files_below(root: str) -> List[str]:
    """Returns the paths of all that will be installed, folders too, from the root."""
    found = []
    for at, folders, names in os.walk(root):
        folders.sort()
        found += [os.path.relpath(f"{at}/{name}", root) for name in sorted(folders + names)]
    return [it for it in found if not it.startswith("DEBIAN")]


def add_control(root: str, words: Dict[str, str]) -> None:
    control = re.sub(r"@(\w+)@", lambda found: words[found[1]], text_of(f"{DEBIAN}/control"))
    write(f"{root}/DEBIAN/control", control)
    for name in ("postinst", "prerm"):
        write(f"{root}/DEBIAN/{name}", text_of(f"{DEBIAN}/{name}"), 0o755)
    files = [it for it in files_below(root) if os.path.isfile(f"{root}/{it}") and not os.path.islink(f"{root}/{it}")]
    sums = output_of(["md5sum", *files], root)
    write(f"{root}/DEBIAN/md5sums", sums)


def set_modes_and_times(root: str, time: int) -> None:
    os.chmod(root, 0o755)
    for path in [*files_below(root), "."]:
        whole = f"{root}/{path}"
        if not os.path.islink(whole):
            may_run = os.path.isdir(whole) or path.startswith(("usr/bin/", "usr/lib/asancol/cargo/"))
            os.chmod(whole, 0o755 if may_run else 0o644)
        os.utime(whole, (time, time), follow_symlinks=False)


def main(folder_of_package: str = TOP) -> int:
    os.umask(0o022)
    time = time_of_sources()
    version = f"{text_of(f'{TOP}/VERSION').strip()}-{REVISION}"
    found = re.search(r"^Maintainer: (.*)$", text_of(f"{DEBIAN}/control"), re.M)
    package = f"{os.path.abspath(folder_of_package)}/asancol_{version}_amd64.deb"
    with tempfile.TemporaryDirectory(prefix="asancol-package-") as folder:
        root = f"{folder}/debian/asancol"
        os.makedirs(f"{root}/DEBIAN")
        install(root)
        strip(root)
        zip_pages(root)
        add_documents(root, version, found[1] if found else "", time)
        set_modes_and_times(root, time)
        size = sum(os.lstat(f"{root}/{it}").st_size for it in files_below(root) if not os.path.isdir(f"{root}/{it}"))
        add_control(root, {"VERSION": version, "SIZE": str(-(-size // 1024)), "LIBRARIES": libraries_of(root)})
        environment = {**os.environ, "SOURCE_DATE_EPOCH": str(time)}
        argv = ["dpkg-deb", "--root-owner-group", "-Zxz", "--build", root, package]
        subprocess.run(argv, env=environment, stdout=subprocess.DEVNULL, check=True)
    print(os.path.basename(package))
    return 0


if __name__ == "__main__":
    sys.exit(main(*sys.argv[1:2]))
