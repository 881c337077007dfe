#!/usr/bin/env python3
"""Counts the instructions of recorded programs, which are the same on a busy machine, and their code.

usage: recorder/tests/instructions.py [--update] [NAME..]

Each program is built by each compiler at -O2, records to a file, and is run by single steps: its code and the
recorder's is counted, by count_instructions.c. Then comes the size of the code (.text*) of some objects. A figure that
is more than 1 % above that of instructions.txt is a failure, and one that is 1 % below it is said. With --update the
figures go there. If a compiler is not the one there, or has no plugin, its figures are not compared. The last line is
'N passed, M failed'.
"""

import argparse
import os
import platform
import sys
import tempfile
from concurrent.futures import ThreadPoolExecutor
from functools import partial
from typing import Callable, Dict, List, NamedTuple, Optional, Tuple

sys.path.insert(0, f"{os.path.dirname(os.path.realpath(__file__))}/../..")  # where `testing` is

import bench
from cheaper import is_given
from support import CC, CXX, TESTS, Compiler, Failure, build, compilers, has_plugin_for, run

FILE = f"{TESTS}/instructions.txt"
HEAD = "# Instructions of a call, and bytes of code: `make count UPDATE=1` writes this.\n"
MOST = 1.01

# A program of bench.py, its function, and its count.
COUNTED = [
    ("array", "array", 10000),
    ("tree", "tree", 60),
    ("sort", "sort", 500),
    ("blocks", "blocks", 200),
    ("frames", "frames", 500),
    ("copies", "copies", 300),
    ("strings", "strings", 300),
    ("text", "text", 20),
    ("faults", "faults", 20),
    ("matrix", "matrix", 1),
    ("containers", "containers", 50),
]
# The matrices of bench.py are too large.
SMALL = "-DSIDE=16"

# Objects, whose code is measured.
OBJECTS = ["speed.c", "containers.cpp", "inline/drawn.c"]


class Key(NamedTuple):
    """What a figure is of: "tree", or "code of speed.c"."""

    name: str
    compiler: str


def version_of(compiler: Compiler) -> str:
    return run([compiler.name, "--version"], ".").stdout.decode().splitlines()[0]


def read() -> Tuple[Dict[str, str], Dict[Key, int]]:
    """The versions of the compilers, and the figures."""
    versions: Dict[str, str] = {}
    figures: Dict[Key, int] = {}
    with open(FILE, encoding="utf-8") as file:
        for line in file:
            if line.startswith("version "):
                _, name, text = line.rstrip("\n").split(" ", 2)
                versions[name] = text
            elif not line.startswith("#") and line.strip():
                name, compiler, figure = line.rsplit(maxsplit=2)
                figures[Key(name, compiler)] = int(figure)
    return versions, figures


def write(versions: Dict[str, str], figures: Dict[Key, int]) -> None:
    with open(FILE, "w", encoding="utf-8") as file:
        file.write(HEAD)
        for name, text in versions.items():
            file.write(f"version {name} {text}\n")
        for key, figure in figures.items():
            file.write(f"{key.name:<24}{key.compiler:<8}{figure:>8}\n")


def compile_by(compiler: Compiler, source: str, path: str, *flags: str) -> None:
    is_cpp = source.endswith(".cpp")
    settings = {"ASANCOL_CXX" if is_cpp else "ASANCOL_CC": (compiler.cxx if is_cpp else compiler.name) or ""}
    build([CXX if is_cpp else CC, "-O2", "-g", "-w", *flags, f"{TESTS}/{source}", "-o", path], ".", **settings)


def instructions(program: str, folder: str, function: str, words: List[str]) -> int:
    """Counts the second call of the function. Its environment is the same each time, since the stack begins with it."""
    symbols = [line.split() for line in run(["nm", program], folder).stdout.decode().splitlines()]
    address = next(it[0] for it in symbols if it[-1] == function and it[-2] in "tT")
    own = tempfile.mkdtemp(dir=folder)
    settings = ["ASANCOL_TRACE=t", "ASANCOL_WHERE=1", "ASANCOL_RUN=0", f"ASANCOL_QUARANTINE={256 << 20}"]
    done = run(["env", "-i", *settings, f"{folder}/count", address, f"../{program}", *words], own)
    said = done.stderr.decode()
    if done.returncode != 0 or not said.strip().isdigit():
        raise Failure(f"{program} {' '.join(words)}: {said.strip()}")
    return int(said)


def code_bytes(compiler: Compiler, folder: str, source: str) -> int:
    path = f"{folder}/{compiler}-{os.path.basename(source)}.o"
    compile_by(compiler, source, path, "-c")
    lines = [line.split() for line in run(["size", "-A", path], folder).stdout.decode().splitlines()]
    return sum(int(line[1]) for line in lines if line and line[0].startswith(".text"))


def works_of(compiler: Compiler, folder: str, names: List[str]) -> Dict[Key, Callable[[], int]]:
    """How each figure comes about. The programs are built here."""
    works: Dict[Key, Callable[[], int]] = {}
    sources = {it.name: it.source for it in bench.PROGRAMS}
    for name, function, count in COUNTED:
        if names and name not in names:
            continue
        program = f"{compiler}-{os.path.splitext(sources[name])[0]}"
        if not os.path.exists(f"{folder}/{program}"):
            compile_by(compiler, sources[name], f"{folder}/{program}", SMALL)
        words = [*([name] if sources[name] == "speed.c" else []), str(count), str(count)]
        works[Key(name, compiler.name)] = partial(instructions, program, folder, function, words)
    for source in OBJECTS:
        key = Key(f"code of {source}", compiler.name)
        if not names or key.name in names:
            works[key] = partial(code_bytes, compiler, folder, source)
    return works


def difference(key: Key, figure: int, wanted: Optional[int]) -> Tuple[bool, str]:
    """Whether a figure passes, and what to say of it."""
    of = f"{key.name} by {key.compiler}: {figure}"
    unit = "bytes" if key.name.startswith("code of ") else "instructions"
    if wanted is None:
        return False, f"{of} {unit}, and instructions.txt has no figure: 'make count UPDATE=1' writes it there"
    change = f"{of} {unit}, which is {100 * (figure / wanted - 1):+.1f} % of the {wanted} in instructions.txt"
    if figure > MOST * wanted:
        return False, f"{change}: make it less, or take it over by 'make count UPDATE=1'"
    if figure * MOST < wanted:
        return True, f"{change}: 'make count UPDATE=1' takes it over"
    return True, ""


def compare(found: Dict[Key, int], figures: Dict[Key, int]) -> int:
    failed = 0
    for key, figure in found.items():
        passes, said = difference(key, figure, figures.get(key))
        failed += not passes
        if said:
            print(f"{'' if passes else 'FAILED: '}{said}")
    print(f"{len(found) - failed} passed, {failed} failed")
    return 1 if failed else 0


def chosen(versions: Dict[str, str], is_update: bool) -> List[Compiler]:
    """The compilers whose figures can be compared."""
    found = []
    for compiler in compilers():
        version = version_of(compiler)
        if compiler.name == "gcc" and not has_plugin_for(CC, compiler):
            print("gcc: not compared, since it has no plugin; 'make recorder' makes it with Debian's gcc-12-plugin-dev")
        elif compiler.name == "clang" and not is_given(compiler, "-O2"):
            print("clang: not compared, since it has no plugin; 'make recorder' makes it with Debian's llvm-14-dev")
        elif not is_update and versions.get(compiler.name) != version:
            print(f"{compiler}: not compared, since it is '{version}', and instructions.txt has figures of "
                  f"'{versions.get(compiler.name)}'")
        else:
            found.append(compiler)
    return found


def main(argv: Optional[List[str]] = None) -> int:
    parser = argparse.ArgumentParser(description="counts the instructions of recorded programs")
    parser.add_argument("--update", action="store_true", help="write the figures into instructions.txt")
    parser.add_argument("names", nargs="*", metavar="NAME")
    options = parser.parse_args(argv)
    versions, figures = read()
    if platform.machine() != "x86_64":
        print("not compared, since the figures are of x86-64\n0 passed, 0 failed")
        return 0
    with tempfile.TemporaryDirectory(prefix="asancol-count-") as folder, ThreadPoolExecutor(os.cpu_count()) as pool:
        build(["cc", "-O2", f"{TESTS}/count_instructions.c", "-o", f"{folder}/count"], ".")
        works: Dict[Key, Callable[[], int]] = {}
        for compiler in chosen(versions, options.update):
            works.update(works_of(compiler, folder, options.names))
            versions[compiler.name] = version_of(compiler)
        try:
            found = dict(zip(works, pool.map(lambda work: work(), works.values())))
        except Failure as error:
            sys.exit(str(error))
    if options.update:
        write(versions, {**figures, **found})
        print(f"{len(found)} passed, 0 failed")
        return 0
    return compare(found, figures)


if __name__ == "__main__":
    sys.exit(main())
