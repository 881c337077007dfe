"""The lines that compiler-rt's tests look for in AddressSanitizer's output, in the text of a recorded program: what
FileCheck says of each."""

import functools
import os
import re
import subprocess
from typing import Iterator, List, Sequence

from beside import compiler_rt
from beside.compare import LEFT_OUT, OTHER, SAME, Job, Verdict
from beside.programs import Kept, folder_for_a_test
from beside.tables import TEXTS
from support import Compiler
from testing.programs import environment

# FileCheck, which notes its status and why it is not 0.
TOOL = """#!/bin/sh
FileCheck-14 --dump-input=never "$@" > /dev/null 2>> {folder}/why
status=$?
echo $status >> {folder}/checks
exit $status
"""


def checks(source: str, script: str, way: str) -> List[str]:
    """Runs the script of a test, and returns what each FileCheck says: nothing, or why it does not match."""
    with folder_for_a_test() as folder:
        for pattern, text in compiler_rt.substitutions(source, script, "real" if way == "real" else "recorded", folder):
            script = script.replace(pattern, text.replace("execute.py recorded", "execute.py text"))
        if way == "text":
            script = script.replace("-fsanitize=address", "")
        tools = {**compiler_rt.TOOLS, "FileCheck": ""}
        for name, text in tools.items():
            with open(f"{folder}/{name}", "w", encoding="utf-8") as file:
                file.write(f"#!/bin/sh\n{text}\n" if text else TOOL.replace("{folder}", folder))
            os.chmod(f"{folder}/{name}", 0o755)
        settings = environment(PATH=f"{folder}:{os.environ['PATH']}", ASANCOL=os.environ["ASANCOL"],
                               ASANCOL_CC="clang", ASANCOL_CXX="clang++")
        nothing = subprocess.DEVNULL
        subprocess.run(["bash", "-c", script], cwd=folder, env=settings, stdin=nothing, stdout=nothing, stderr=nothing,
                       check=False, timeout=1800)
        if not os.path.exists(f"{folder}/checks"):
            return []
        with open(f"{folder}/checks", encoding="utf-8") as file:
            statuses = file.read().split()
        with open(f"{folder}/why", encoding="utf-8", errors="replace") as file:
            whys = re.findall(r"(?m)error: (.*)\n(.*)", file.read())
    why = "; ".join(f"{what}: {line.strip()}" for what, line in whys[:1])
    return [why or "it does not match" if status != "0" else "" for status in statuses]


def check(compiler: Compiler, source: str) -> List[Verdict]:
    with open(source, encoding="utf-8", errors="replace") as file:
        text = file.read()
    why, script = compiler_rt.why_not(os.path.relpath(source, compiler_rt.TREE), text), compiler_rt.script_of(text)
    if why or "FileCheck" not in script:
        return [why or Verdict(LEFT_OUT, "looks at no text")]
    found = checks(source, script, "text")
    if any(found) and any(checks(source, script, "real")):
        return [Verdict(LEFT_OUT, "AddressSanitizer's own text does not match here")]
    return [Verdict(OTHER if it else SAME, it, f"check {number}") for number, it in enumerate(found, 1)] or [
        Verdict(LEFT_OUT, "runs nothing")]


def jobs(_: Kept, compilers: Sequence[Compiler]) -> Iterator[Job]:
    for compiler in compilers:
        if compiler.name == "clang" and compiler.cxx:
            for name in TEXTS:
                yield Job("text", name, functools.partial(check, compiler, f"{compiler_rt.TREE}/{name}"))
