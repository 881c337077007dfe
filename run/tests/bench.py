#!/usr/bin/env python3
"""Measures commands under asancol-run beside the same ones without it.

usage: run/tests/bench.py [--rounds N] ASANCOL [WORD..]

For each row: the least time of N runs (5), wall and processor, user and system, in milliseconds; native, and under
asancol-run; and the bar, which the wall time should not pass. Runs are interleaved. With words, only rows whose names
have one of them. Rows that need asancol-report are left out if it is not there, and a line says so.
"""

import argparse
import os
import resource
import shutil
import subprocess
import sys
import tempfile
import time
from typing import Dict, List, NamedTuple, Optional, Tuple

sys.path.insert(0, f"{os.path.dirname(os.path.realpath(__file__))}/../..")  # where `testing` is

from support import CC, REPORT, RUN, environment

PLACES = 2000


class Row(NamedTuple):
    name: str
    program: str  # NATIVE stands for the folder of native programs in the command, and is replaced
    argv: List[str]
    bar: int  # milliseconds
    needs_report: bool = False


TINY = "int main(void) { volatile char *block = malloc(8); block[0] = 1; free((void *)block); return 0; }"
# A loop of stores; each is an event if it is compiled with ASANCOL_ALL=1.
STORES = (
    "int main(int count, char **argv) { long most = count > 1 ? atol(argv[1]) : 0;"
    " volatile long *block = malloc(8192); for (long i = 0; i < most; i++) block[i % 1024] = i;"
    " free((void *)block); return 0; }"
)
PAST = (
    "int main(int count, char **argv) { long most = count > 1 ? atol(argv[1]) : 1; volatile char *block = malloc(8);"
    " for (long i = 0; i < most; i++) block[8] = 1; free((void *)block); return 0; }"
)
MANY = "".join(
    f"__attribute__((noinline)) void f{i}(volatile char *p) {{\n p[8] = {i % 100};\n}}\n" for i in range(PLACES)
)
CALLS = "".join(f"f{i}(p);\n" for i in range(PLACES))
MANY += f"int main(void) {{ volatile char *p = malloc(8);\n{CALLS}return 0; }}"

LOOP = "i=0; while [ $i -lt 1000 ]; do FOLDER/tiny; i=$((i+1)); done"

ROWS = [
    Row("one tiny process", "tiny", ["FOLDER/tiny"], 5),
    Row("1,000 tiny processes in a row", "tiny", ["sh", "-c", LOOP], 2500),
    Row("16 million events, ASANCOL_ALL=1", "stores", ["FOLDER/stores", "16000000"], 1500),
    Row("one report", "past", ["FOLDER/past"], 150, True),
    Row("100,000 lines of one place", "past", ["FOLDER/past", "100000"], 1000, True),
    Row("2,000 places", "many", ["FOLDER/many"], 1000, True),
]


def build(folder: str) -> None:
    """Builds each program, native and recorded."""
    sources = {"tiny": TINY, "stores": STORES, "past": PAST, "many": MANY}
    for way, argv in (("native", [os.environ.get("ASANCOL_CC", "cc")]), ("recorded", [CC])):
        os.mkdir(f"{folder}/{way}")
        for name, text in sources.items():
            source = f"{folder}/{name}.c"
            with open(source, "w", encoding="utf-8") as file:
                file.write(f"#include <stdlib.h>\n{text}\n")
            settings = {"ASANCOL_ALL": "1"} if name == "stores" else {}
            made = [*argv, "-g", "-O1", source, "-o", f"{folder}/{way}/{name}"]
            subprocess.run(made, env={**os.environ, **settings}, check=True)


def measure(argv: List[str], settings: Dict[str, str]) -> Tuple[float, float]:
    """Runs once, and returns wall and processor time in milliseconds."""
    before = resource.getrusage(resource.RUSAGE_CHILDREN)
    begun = time.perf_counter()
    nothing = subprocess.DEVNULL
    subprocess.run(argv, env=settings, stdout=nothing, stderr=nothing, check=False)
    wall = time.perf_counter() - begun
    after = resource.getrusage(resource.RUSAGE_CHILDREN)
    processor = after.ru_utime + after.ru_stime - before.ru_utime - before.ru_stime
    return wall * 1000, processor * 1000


def table_row(row: Row, rounds: int, folder: str, settings: Dict[str, str]) -> str:
    native = [it.replace("FOLDER", f"{folder}/native") for it in row.argv]
    checked = [RUN, "-q", "--", *[it.replace("FOLDER", f"{folder}/recorded") for it in row.argv]]
    seen: Dict[str, List[Tuple[float, float]]] = {"native": [], "checked": []}
    for _ in range(rounds):
        seen["native"].append(measure(native, settings))
        seen["checked"].append(measure(checked, settings))
    figures = ""
    for way in ("native", "checked"):
        figures += f"{min(it[0] for it in seen[way]):11.1f}{min(it[1] for it in seen[way]):11.1f}"
    return f"{row.name:<36}{figures}{row.bar:>8}"


def main(argv: Optional[List[str]] = None) -> int:
    parser = argparse.ArgumentParser(description="measures commands under asancol-run")
    parser.add_argument("--rounds", type=int, default=5)
    parser.add_argument("asancol")
    parser.add_argument("names", nargs="*")
    options = parser.parse_args(argv)
    settings = environment(ASANCOL=os.path.abspath(options.asancol))
    folder = tempfile.mkdtemp(prefix="asancol-bench-")
    try:
        build(folder)
        print(f"{'milliseconds':<36}{'native':>11}{'processor':>11}{'checked':>11}{'processor':>11}{'bar':>8}")
        for row in ROWS:
            if options.names and not any(it in row.name for it in options.names):
                continue
            if row.needs_report and not os.access(REPORT, os.X_OK):
                print(f"{row.name:<36}left out: {os.path.basename(REPORT)} is not there")
                continue
            print(table_row(row, options.rounds, folder, settings), flush=True)
        return 0
    finally:
        shutil.rmtree(folder, ignore_errors=True)


if __name__ == "__main__":
    sys.exit(main())
