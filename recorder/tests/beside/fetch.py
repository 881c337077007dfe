"""The sources of AddressSanitizer's tests: the needed parts of LLVM's and of GCC's archives."""

import glob
import os
import shutil
import subprocess
from typing import List

from beside.execute import IS_ARM, SOURCES
from debian import Archive, run_in

ARCHIVE = Archive(os.path.dirname(SOURCES.rstrip("/")))

# The archive of each package, the folders that are needed of it, and for GCC the archive that lies in it.
PACKAGES = {
    "llvm-toolchain-14": ["*/compiler-rt/test/asan/*", "*/compiler-rt/lib/*_flags.inc"],
    "gcc-12": [f"*/gcc/testsuite/{it}/asan/*" for it in ("c-c++-common", "gcc.dg", "g++.dg")],
}


def unpack(package: str, folder: str, patterns: List[str]) -> None:
    """Unpacks what fits these patterns."""
    archive = max(glob.glob(f"{ARCHIVE.sources}/{package}_*.orig.tar.*"), key=os.path.getmtime)
    argv = ["tar", "--strip-components=1", "-C", folder, "--wildcards"]
    inner = subprocess.run(["tar", "-tf", archive], stdout=subprocess.PIPE, text=True, check=True).stdout.splitlines()
    nested = next((it for it in inner if f"/{package.split('-')[0]}-" in it and it.endswith(".tar.xz")), None)
    if nested:
        run_in(folder, "tar", "--strip-components=1", "-C", folder, "-xf", archive, nested)
        archive = f"{folder}/{os.path.basename(nested)}"
    run_in(folder, *argv, "-xf", archive, *patterns)
    if nested:
        os.unlink(archive)


def fetch() -> None:
    """Fetches and unpacks the sources that are not there yet. The archives are kept."""
    needed = [it for it in PACKAGES if not IS_ARM or it == "gcc-12"]
    missing = [it for it in needed if not os.path.isdir(f"{SOURCES}{it}")]
    if missing:
        ARCHIVE.update()
    for package in missing:
        ARCHIVE.download(package, "--tar-only")
        partial = f"{SOURCES}{package}.partial"
        shutil.rmtree(partial, ignore_errors=True)
        os.makedirs(partial)
        unpack(package, partial, PACKAGES[package])
        os.rename(partial, f"{SOURCES}{package}")
