"""Sources of Debian's packages, fetched with apt-get without a change to the system's settings of apt."""

import glob
import os
import subprocess

from support import Failure

PARTS = """Types: deb deb-src
URIs: http://deb.debian.org/debian
Suites: bookworm
Components: main
Signed-By: /usr/share/keyrings/debian-archive-keyring.gpg
"""


def run_in(folder: str, *argv: str) -> None:
    ran = subprocess.run(argv, cwd=folder, capture_output=True, text=True, check=False)
    if ran.returncode != 0:
        raise Failure(f"{' '.join(argv)}: {ran.stderr.strip()}")


class Archive:
    """An archive of sources, whose lists, settings and packages are below a folder."""

    def __init__(self, folder: str) -> None:
        self.state, self.sources = f"{folder}/apt", f"{folder}/sources"

    def apt(self, *argv: str) -> None:
        settings = {
            "Dir::Etc::SourceList": "/dev/null",
            "Dir::Etc::SourceParts": f"{self.state}/parts",
            "Dir::State::Lists": f"{self.state}/lists",
            "Dir::Cache": f"{self.state}/cache",
            "APT::Update::Error-Mode": "any",
        }
        options = [piece for name, value in settings.items() for piece in ("-o", f"{name}={value}")]
        run_in(self.sources, "apt-get", "-qq", *options, *argv)

    def update(self) -> None:
        below = ("parts", "lists/partial", "cache/archives/partial")
        for folder in (self.sources, *(f"{self.state}/{it}" for it in below)):
            os.makedirs(folder, exist_ok=True)
        with open(f"{self.state}/parts/debian.sources", "w", encoding="utf-8") as file:
            file.write(PARTS)
        self.apt("update")

    def download(self, package: str, *options: str) -> None:
        """Puts what a source package consists of into `sources`."""
        self.apt("source", "--download-only", *options, package)

    def unpack(self, package: str, to: str) -> None:
        """Unpacks a package that consists of sources, as those of Rust's crates, into a folder."""
        self.apt("download", package)
        (found,) = glob.glob(f"{self.sources}/{package}_*.deb")
        run_in(self.sources, "dpkg-deb", "-x", found, to)
        os.unlink(found)
