"""Answers that earlier runs gave, each under a sum of all that it rests on.

They stand in `asancol/mutants` below $XDG_CACHE_HOME, or below ~/.cache, where each clone on the
machine finds them. What can't be written there is not kept. One that no run has asked for in 30
days is removed.
"""

import contextlib
import hashlib
import json
import os
import subprocess
import tempfile
import time
from typing import List, Optional

from gate import TOP

# The sources that read edits and judge refusals.
SCRIPTS = ("bodies", "edits", "kept", "rooms", "rounds", "verdicts", "mutants")

# How long an answer stays that no run asks for, in seconds.
LONGEST = 30 * 24 * 3600


def sum_of(top: str, lines: List[str], files: List[str]) -> str:
    """Returns a sum of the toolchain, the scripts, these lines, and these files below `top`."""
    version = subprocess.run(["rt", "version"], stdout=subprocess.PIPE, text=True, check=True)
    total = hashlib.sha256(repr((version.stdout, lines)).encode())
    for path in [*(f"{TOP}/tools/{it}.py" for it in SCRIPTS), *files]:
        name = os.path.relpath(path, top) if path.startswith(f"{top}/") else os.path.basename(path)
        with open(path, "rb") as file:
            total.update(repr((name, file.read())).encode())
    return total.hexdigest()


def key_of(sum_of_all: str, name: str, said: str) -> str:
    """Returns the key of an edit's answer: its name and text count too."""
    return hashlib.sha256(repr((sum_of_all, name, said)).encode()).hexdigest()


class Kept:
    """The folder. If `anew` nothing is taken from it."""

    def __init__(self, anew: bool) -> None:
        cache = os.environ.get("XDG_CACHE_HOME") or os.path.expanduser("~/.cache")
        self.folder = f"{cache}/asancol/mutants"
        self.anew = anew
        with contextlib.suppress(OSError):
            for it in os.scandir(self.folder):
                if it.stat().st_mtime < time.time() - LONGEST:
                    os.remove(it.path)

    def get(self, key: str) -> Optional[str]:
        """Returns by what an edit was refused, if it was."""
        if self.anew:
            return None
        try:
            with open(f"{self.folder}/{key}", encoding="utf-8") as file:
                found = json.load(file)
            os.utime(f"{self.folder}/{key}")
            return str(found["refused"]) if found["key"] == key else None
        except (OSError, ValueError, KeyError, TypeError):
            return None

    def put(self, key: str, refused: str) -> None:
        with contextlib.suppress(OSError):
            os.makedirs(self.folder, 0o700, exist_ok=True)
            with tempfile.NamedTemporaryFile("w", dir=self.folder, delete=False) as file:
                json.dump({"key": key, "refused": refused}, file)
            os.replace(file.name, f"{self.folder}/{key}")
