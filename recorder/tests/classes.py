"""The classes of AddressSanitizer's reports: that RECORDER.md says of each what a report has in its place."""

import glob
import re
import subprocess
from typing import Dict, List, Set, Tuple

from asancol_report.class_names import BY_SHADOW, NOT_POISONED, class_of
from asancol_report.shade_table import SHADES
from asancol_report.side import Fault
from beside.tables import CRASHES, UNCLAIMED
from support import TOP, Compiler, Suite, expect, leave_out, write
from testing import traces
from testing.classes import THE_SAME, table_of_classes
from testing.lines import lines_of
from testing.programs import call

# The archive of the runtime, and which of its members name classes; or a shared object.
RUNTIMES = {"clang": ("libclang_rt.asan-x86_64.a", ["asan_errors.cpp.o", "asan_report.cpp.o",
                                                    "asan_descriptions.cpp.o"]),
            "gcc": ("libasan.so", ())}
# A class among the texts of a program, as `out-of-memory`.
CLASS = re.compile(rb"(?<=\0)[a-z_]{3,}(?:-[a-z_]{2,})+(?=\0)")
# The same, but no class: the severity of a fault, and the command.
OTHERS = {"default-aligned", "far-from-bounds", "heap-invalid", "llvm-symbolizer", "null-deref", "multi-byte",
          "wild-addr",
          "wild-addr-read", "wild-addr-write", "wild-jump"}
# What the comparison calls in another way.
WORDS = {"CHECK": ["CHECK failed"], "does not build": ()}


# A class of the table in a source.
NAMES_A_CLASS = re.compile("|".join(sorted({f'"{it.class_name}"' for it in SHADES})))


def text_of(path: str) -> str:
    with open(path, encoding="utf-8") as file:
        return file.read()


def runtime_of(compiler: Compiler) -> bytes:
    name, members = RUNTIMES[compiler.name]
    path = call([compiler.name, f"-print-file-name={name}"], stdout=subprocess.PIPE, text=True,
                check=True).stdout.strip()
    if members:
        return call(["ar", "p", path, *members], stdout=subprocess.PIPE, check=True).stdout
    with open(path, "rb") as file:
        return file.read()


def missing(names: Set[str]) -> List[str]:
    return sorted(names - set(table_of_classes()))


def check_runtime(suite: Suite, folder: str, compiler: Compiler) -> None:
    """Each class that the runtime knows has a row."""
    found = {it.decode() for it in CLASS.findall(runtime_of(compiler))} - OTHERS
    expect(len(found) > 20 and {"heap-use-after-free", "odr-violation"} <= found, True, f"classes: {sorted(found)}")
    expect(missing(found), [], "classes without a row")


def check_tables(suite: Suite, folder: str) -> None:
    """So has each by which AddressSanitizer's own tests are left out, or compared with a signal. None of these is one
    that reports have too."""
    names = {name for it in (*CRASHES, *UNCLAIMED) for name in WORDS.get(it, [it])}
    expect(missing(names), [], "classes without a row")
    said = table_of_classes()
    expect(sorted(it for it in names if said[it].startswith(THE_SAME)), [], "classes that are left out, and claimed")


# Says of each shadow byte the class that the recorder prints, and the kind of poison that it records.
NAMES_BYTES = """
#include <stdio.h>
#include "common/shades.h"
int main(void)
{
    for (unsigned shade = 0; shade < 256; shade++)
        printf("%s %d\\n", shade_class((unsigned char)shade), shade_kind((unsigned char)shade));
    return 0;
}
"""
# A byte of each shadow that a trace can give: in a redzone, freed, and in each kind of poison.
EACH_SHADOW = [
    traces.malloc(0x1000, 8), traces.load(1, 0x1008), traces.free(0x1000), traces.load(1, 0x1000),
    *(event for kind in range(3) for event in (traces.poison(0x2000, 8, kind), traces.load(1, 0x2000))),
]


def names_in_recorder(folder: str) -> List[Tuple[str, int]]:
    write(folder, names_c=NAMES_BYTES)
    call(["cc", "-std=c11", f"-iquote{TOP}", f"{folder}/names.c", "-o", f"{folder}/names"], check=True)
    said = call([f"{folder}/names"], stdout=subprocess.PIPE, text=True, check=True).stdout
    return [(name, int(kind)) for name, kind in map(str.split, said.splitlines())]


def names_in_checker(suite: Suite, folder: str) -> Dict[int, str]:
    """Returns the class that the checker prints for each shadow byte, in the order of the events."""
    with open(f"{folder}/each.trace", "wb") as file:
        file.write(traces.closed(*EACH_SHADOW, header=traces.HEADERS[2]))
    argv = [suite.asancol, "check", f"{folder}/each.trace"]
    printed = call(argv, stdout=subprocess.PIPE).stdout
    return {int(it.shadow, 16): it.class_name for it in lines_of(printed)[0]}


def name_in_report(byte: int, verdict: str) -> str:
    """Returns the class in a report of an access that the checker calls so, if its bad byte has this shadow."""
    fault = Fault((), 0, 0, (), (), 0, 0, "", (0, 0, 0), 0, 0, bytes([byte, 0]), 0, 0, 0, "", "")
    return class_of(verdict, "load", 0, fault)


def check_names(suite: Suite, folder: str) -> None:
    """Of each shadow byte the recorder, the checker and asancol-report have the same class, the checker a coarser one.
    Of a byte that no shadow has the report's is the checker's. MODEL.md has the checker's, and no other part of the
    recorder has classes of its own."""
    in_recorder, in_checker = names_in_recorder(folder), names_in_checker(suite, folder)
    of_kind = list(in_checker.values())[2:]
    expect([f"{byte:02x}" for byte in in_checker], ["fa", "fd", "f7", "f2", "f9"], "shadow bytes of the checker")
    for byte, (name, kind) in enumerate(in_recorder):
        fine, coarse = BY_SHADOW.get(byte, ("unknown-crash", ""))
        expect(fine, name, f"the class of {byte:02x}")
        expect(in_checker.get(byte, coarse), coarse, f"the checker's class of {byte:02x}")
        for verdict in in_checker.values():
            is_finer = verdict == coarse or (verdict == of_kind[0] and coarse and fine not in NOT_POISONED)
            expect(name_in_report(byte, verdict), fine if is_finer else verdict, f"the report's of {byte:02x}")
        if byte in BY_SHADOW and not coarse.startswith("heap-"):
            expect(of_kind[kind], coarse, f"the checker's class of {byte:02x}, as it is recorded")
    with open(f"{TOP}/docs/inside/MODEL.md", encoding="utf-8") as file:
        rows = re.findall(r"^\| [\w ]+ \| `(\w\w)` \| (\S+) \|$", file.read(), re.M)
    expect({int(byte, 16): name for byte, name in rows}, in_checker, "the shadow bytes of MODEL.md")
    sources = [it for it in glob.glob(f"{TOP}/recorder/*/*.c") if "/tests/" not in it]
    own = [it for it in sources if NAMES_A_CLASS.search(text_of(it))]
    expect(own, [], "sources that name the class of a shadow byte")


def tests(suite: Suite, compiler: Compiler) -> None:
    if compiler.has_sanitizer and compiler.name in RUNTIMES:
        suite.test(f"{compiler} classes have a row", check_runtime, compiler)
    else:
        leave_out(f"{compiler} classes have a row: its AddressSanitizer is not there")


def tests_of_all(suite: Suite) -> None:
    suite.test("classes of the comparison have a row", check_tables)
    suite.test("classes of shadow bytes", check_names)
