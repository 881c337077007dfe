"""The page of messages, docs/TROUBLESHOOTING.md: it has each reason for which a process is incomplete, its messages are
those of the programs, and what others say comes as it says."""

import glob
import re
import shutil
from typing import Iterator, List

from support import CC, TOP, Suite, compilers_there, expect, write_text
from testing.programs import call

PAGE = f"{TOP}/docs/TROUBLESHOOTING.md"

# What linkers, loaders, harnesses and AddressSanitizer say.
OF_OTHERS = ("undefined reference to ", ".._store8", "asancol_report_load4", "cannot run C compiled programs",
             "ASan runtime", "from LD_PRELOAD", "No such file or directory")

# The words in a reason of run/judgement_rows.h that stand for others.
FILLED = re.compile(r"\b(?:CHECKER|SIGNAL|LEFT|ALL|LOST|EVENTS|MISSING|HOW|FATE|CAUSE)\b")
# And in a text of C, with what the compiler joins.
JOINED = re.compile(r"\"\s*(?:PRI\w+\s*)?f?\"")


def read(path: str) -> str:
    with open(path, encoding="utf-8") as file:
        return file.read()


def messages() -> Iterator[str]:
    """The messages of the page: the literal text in the first column of its tables."""
    for line in read(PAGE).splitlines():
        if line.startswith("| `"):
            yield from re.findall(r"`([^`]+)`", line.split(" | ")[0])


def sources() -> str:
    """All that may print a message, with joined literals."""
    found: List[str] = []
    for pattern in ("run/*.c", "run/*.h", "recorder/*/*.[ch]", "common/*.[ch]", "report/asancol_report/*.py"):
        found += [read(path) for path in sorted(glob.glob(f"{TOP}/{pattern}"))]
    return JOINED.sub("", "\n".join(found))


def check_reasons(suite: Suite, folder: str) -> None:
    """Who reads that a process is incomplete finds the reason."""
    rows = re.sub(r"\"\s*\n\s*\"", "", read(f"{TOP}/run/judgement_rows.h"))
    whys = {FILLED.sub("..", it) for it in re.findall(r"INCOMPLETE,\s+\"([^\"]*)\"", rows)}
    expect((len(whys) > 20, sorted(whys - set(messages()))), (True, []), "reasons that have no row")


def check_ours(suite: Suite, folder: str) -> None:
    """Each piece of a message between names and numbers is in a program."""
    text = FILLED.sub("", sources())
    pieces = [piece.strip(" :,") for it in messages() if not it.startswith(OF_OTHERS) for piece in it.split("..")]
    expect([it for it in pieces if it not in text], [], "pieces that no program prints")


def check_links(suite: Suite, folder: str, compiler: str) -> None:
    """What a linker says where objects and runtime do not fit."""
    write_text(f"{folder}/main.c", "int get(int *from); int main(void) { int one = 0; return get(&one); }\n")
    write_text(f"{folder}/get.c", "int get(int *from) { return *from; }\n")
    environment = suite.environment(ASANCOL_CC=compiler)
    call([compiler, "-fsanitize=address", "-c", "get.c"], cwd=folder, check=True)
    call(["ar", "rc", "libget.a", "get.o"], cwd=folder, check=True)
    ran = call([CC, "main.c", "libget.a"], cwd=folder, env=environment, capture_output=True, check=False)
    expect((ran.returncode, b"undefined reference to `__asan_report_load4'" in ran.stderr), (1, True), ran.stderr)
    named = re.compile(rb"undefined reference to `(__asan_report_(exp_)?load4_noabort|asancol_report_load4)'")
    call([CC, "-O2", "-c", "get.c", "main.c"], cwd=folder, env=environment, check=True)
    ran = call([compiler, "main.o", "get.o"], cwd=folder, capture_output=True, check=False)
    expect((ran.returncode, named.search(ran.stderr) is not None), (1, True), ran.stderr)


def tests(suite: Suite) -> None:
    suite.test("messages: reasons", check_reasons)
    suite.test("messages: ours", check_ours)
    for compiler in compilers_there():
        if shutil.which("ar"):
            suite.test(f"messages: links, {compiler}", check_links, compiler)
