"""Programs that are built and run in both ways, and the kept results of AddressSanitizer."""

import contextlib
import functools
import hashlib
import inspect
import json
import os
import shutil
import subprocess
import tempfile
from typing import Any, Callable, Iterator, List, NamedTuple, Sequence, Tuple

from beside.execute import (HARMLESS, NOT_BUILT, SOURCES, Execution, Report, class_by_sanitizer, execute, first_line,
                            frames, other_option, report_by_sanitizer, stack_after)
from support import CC, CXX, Compiler, by_sanitizer
from testing.programs import run

OUT = os.path.dirname(SOURCES.rstrip("/"))


class Kept:
    """What AddressSanitizer's runtime has said, by what it was asked. It is asked anew if the reading has changed."""

    def __init__(self, folder: str) -> None:
        self.folder = folder
        os.makedirs(folder, exist_ok=True)

    def ask(self, question: Sequence[str], make: Callable[[], List[Execution]]) -> List[Execution]:
        text = "\0".join([READING, *question]).replace(SOURCES, "")
        path = f"{self.folder}/{hashlib.sha256(text.encode()).hexdigest()}"
        if not is_kept(path):
            said = make()
            with open(f"{path}.new", "w", encoding="utf-8") as file:
                json.dump(said, file)
            os.replace(f"{path}.new", path)
        return read_all(path)


def read_all(path: str) -> List[Execution]:
    with open(path, encoding="utf-8") as file:
        return [read(it) for it in json.load(file)]


def is_kept(path: str) -> bool:
    """Whether it is there. Of several options one was kept: if that is harmless by now, another one may not be."""
    return os.path.exists(path) and not any(it.option and not other_option(it.option) for it in read_all(path))


def read(said: List[Any]) -> Execution:
    """The output. After some classes AddressSanitizer puts a colon."""
    status, report, option = said
    return Execution(status, Report(report[0].rstrip(":"), *report[1:]) if report else None, option)


# How a report is read, and which options are nothing to it.
READERS: Tuple[Callable[..., Any], ...]
READERS = report_by_sanitizer, class_by_sanitizer, stack_after, frames, first_line, by_sanitizer, other_option
READING = "".join([*(inspect.getsource(it) for it in READERS), *sorted(HARMLESS)])


@functools.lru_cache(maxsize=None)
def version_of(compiler: Compiler) -> str:
    return subprocess.run([compiler.name, "--version"], stdout=subprocess.PIPE, text=True, check=True).stdout


def without_address(flags: Sequence[str]) -> List[str]:
    """These flags without what asks for AddressSanitizer, which asancol-cc would leave alone."""
    found = []
    for flag in flags:
        name, _, value = flag.partition("=")
        if name == "-fsanitize":
            value = ",".join(it for it in value.split(",") if it != "address")
            flag = f"{name}={value}" if value else ""
        if flag and flag not in ("-lasan", "-static-libasan"):
            found.append(flag)
    return found


@contextlib.contextmanager
def folder_for_a_test() -> Iterator[str]:
    folder = tempfile.mkdtemp(prefix="asancol-beside-")
    try:
        yield folder
    finally:
        shutil.rmtree(folder, ignore_errors=True)


class Program(NamedTuple):
    """A program by its sources and flags."""

    compiler: Compiler
    is_cpp: bool
    argv: List[str]

    def build(self, way: str, folder: str) -> bool:
        """Whether it was built, as FOLDER/WAY."""
        command = str(self.compiler.cxx if self.is_cpp else self.compiler.name)
        argv = [command, "-fsanitize=address", *self.argv]
        settings = {}
        if way == "recorded":
            argv = [CXX if self.is_cpp else CC, *without_address(self.argv)]
            settings["ASANCOL_CXX" if self.is_cpp else "ASANCOL_CC"] = command
        return run([*argv, "-o", way], folder, **settings).returncode == 0

    def execute(self, way: str, folder: str, *arguments: str, **settings: str) -> Execution:
        return execute(way, [f"./{way}", *arguments], folder, folder, **settings)

    def build_and_execute(self, way: str, folder: str, **settings: str) -> List[Execution]:
        if not self.build(way, folder):
            return [Execution(1, Report(NOT_BUILT, ""))]
        return [self.execute(way, folder, **settings)]
