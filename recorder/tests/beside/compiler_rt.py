"""compiler-rt's tests, by their RUN lines, which a shell runs. What they look for in the output is not asked: what
AddressSanitizer says of each execution is."""

import functools
import glob
import json
import os
import re
import subprocess
from typing import Iterator, List, Optional, Sequence, Tuple

from beside.compare import ELSEWHERE, LEFT_OUT, Job, Verdict, compare_all
from beside.execute import FINDS_RETURNS, RETURNS, SOURCES, Execution
from beside.programs import Kept, folder_for_a_test, read, version_of, without_address
from support import CC, CXX, Compiler
from testing.programs import environment

TREE = f"{SOURCES}llvm-toolchain-14/compiler-rt/test/asan/TestCases"
EXECUTE = f"{os.path.dirname(os.path.realpath(__file__))}/execute.py"

# What a test may ask for, and is here.
FEATURES = {"linux", "x86_64-linux", "x86_64-target-arch", "x86-target-arch", "asan-64-bits", "asan-static-runtime",
            "stable-runtime", "shadow-scale-3", "fast-unwinder-works", "leak-detection", "glibc-2.27", "shell", "Clang",
            "compiler-rt-optimized", "shared_cxxabi", "lld", "lld-available", "lto", "*"}

# The folders of tests for other systems.
OTHER_SYSTEMS = ("Android", "Darwin", "Windows")

# What the tools do that lines are piped through: nothing is asked of the output.
TOOLS = {"not": '[ "$1" != --crash ] || shift; exec "$@"', "FileCheck": "exec cat > /dev/null",
         "count": "exec cat > /dev/null"}

FLAGS = ["-fsanitize=address", "-mno-omit-leaf-frame-pointer", "-fno-omit-frame-pointer", "-fno-optimize-sibling-calls",
         "-gline-tables-only"]


def has(text: str) -> bool:
    """Whether an expression of features, as `(linux && !android) || lld`, holds here."""
    words = re.findall(r"&&|\|\||[!()]|[^\s!()&|]+", text)
    operators = {"&&": " and ", "||": " or ", "!": " not ", "(": "(", ")": ")"}
    return bool(eval("".join(operators.get(it) or str(it in FEATURES) for it in words)))  # of these words alone


def clauses(text: str, name: str) -> Iterator[str]:
    for line in re.findall(rf"(?<![-\w]){name}: *(.*)", text):
        yield from (it.strip() for it in line.split(",") if it.strip())


def unfit(text: str) -> str:
    """What a test asks for and is not here, or with what it can't run."""
    for it in clauses(text, "REQUIRES"):
        if not has(it):
            return f"asks for {it}"
    return next((f"is not for {it}" for it in clauses(text, "UNSUPPORTED") if has(it)), "")


def why_not(name: str, text: str) -> Optional[Verdict]:
    """Why a test can't be run here, if it can't."""
    if name.split("/")[0] in OTHER_SYSTEMS:
        return Verdict(ELSEWHERE, "for other systems")
    why = unfit(text)
    if why:
        return Verdict(ELSEWHERE if "-target-arch" in why else LEFT_OUT, why)
    return None if script_of(text) else Verdict(LEFT_OUT, "has no RUN line")


def script_of(text: str) -> str:
    """The RUN lines, one after another. One that fails does not end them."""
    lines: List[str] = []
    for line in re.findall(r"(?<![-\w])RUN: *(.*?) *$", text, re.M):
        if lines and lines[-1].endswith("\\"):
            lines[-1] = f"{lines[-1][:-1]} {line}"
        else:
            lines.append(line)
    return "\n".join(lines)


def substitutions(source: str, script: str, way: str, folder: str) -> Iterator[Tuple[str, str]]:
    """What stands in RUN lines, and for what, in the order in which it is replaced."""
    base = f"{os.path.basename(source)}.tmp"
    flags, cc, cxx = FLAGS, "clang", "clang++"
    if way == "recorded":
        flags, cc, cxx = without_address(FLAGS) + ([FINDS_RETURNS] if RETURNS in script else []), CC, CXX
    for name, command in (("%clangxx_asan", cxx), ("%clang_asan", cc)):
        yield f"{name}_static ", f"{command} {' '.join(flags)} "
        yield f"{name} ", f"{command} {' '.join(flags)} "
    yield from (("%clangxx ", "clang++ "), ("%clang ", "clang "), ("%env_asan_opts=", "env ASAN_OPTIONS="))
    for number in ("2", "1", ""):
        yield f"%ld_flags_rpath_exe{number}", f"-Wl,-rpath,\\$ORIGIN -L{folder} -l{base}.dynamic{number}"
        yield f"%ld_flags_rpath_so{number}", ""
        yield f"%dynamiclib{number}", f"{folder}/lib{base}.dynamic{number}.so"
        yield f"%xdynamiclib_filename{number}", f"lib{base}.dynamic{number}.so"
    yield from (("%libdl", "-ldl"), ("%fPIC", "-fPIC"), ("%fPIE", "-fPIE"), ("%pie", "-pie"), ("%env ", "env "),
                ("%linux_static_libstdcplusplus", "-static-libstdc++"), ("%os", "Linux"), ("%basename_t", base))
    yield "%run", f"python3 {EXECUTE} {way} {folder}"
    yield from (("%s", source), ("%t", f"{folder}/{base}"), ("%T", folder))
    yield from ((it, os.path.dirname(source)) for it in ("%p", "%S"))
    yield from (("%%", "%"),)


def executions(source: str, script: str, way: str) -> List[Execution]:
    """Runs the script of a test in a new folder."""
    with folder_for_a_test() as folder:
        for pattern, text in substitutions(source, script, way, folder):
            script = script.replace(pattern, text)
        if way == "recorded":
            script = script.replace("-fsanitize=address", "")
        for name, text in TOOLS.items():
            with open(f"{folder}/{name}", "w", encoding="utf-8") as file:
                file.write(f"#!/bin/sh\n{text}\n")
            os.chmod(f"{folder}/{name}", 0o755)
        settings = environment(PATH=f"{folder}:{os.environ['PATH']}", ASANCOL=os.environ["ASANCOL"],
                               ASANCOL_CC="clang", ASANCOL_CXX="clang++")
        nothing = subprocess.DEVNULL
        subprocess.run(["bash", "-c", script], cwd=folder, env=settings, stdin=nothing, stdout=nothing, stderr=nothing,
                       check=False, timeout=1800)
        if not os.path.exists(f"{folder}/executions"):
            return []
        with open(f"{folder}/executions", encoding="utf-8") as file:
            return [read(json.loads(line)) for line in file]


def check(kept: Kept, compiler: Compiler, source: str) -> List[Verdict]:
    with open(source, encoding="utf-8", errors="replace") as file:
        text = file.read()
    why, script = why_not(os.path.relpath(source, TREE), text), script_of(text)
    if why:
        return [why]
    question = [version_of(compiler), script, *FLAGS, text]
    real = kept.ask(question, lambda: executions(source, script, "real"))
    if not real:
        return [Verdict(LEFT_OUT, "runs nothing")]
    verdicts = compare_all(real, lambda: executions(source, script, "recorded"))
    return [it._replace(where=f"run {number}") for number, it in enumerate(verdicts, 1)]


def sources() -> List[str]:
    """The files that have RUN lines, in their order."""
    return [it for it in sorted(glob.glob(f"{TREE}/**/*.c*", recursive=True))
            if it.endswith((".c", ".cpp")) and "/Helpers/" not in it]


def jobs(kept: Kept, compilers: Sequence[Compiler]) -> Iterator[Job]:
    for compiler in compilers:
        if compiler.name == "clang" and compiler.cxx:
            for source in sources():
                run = functools.partial(check, kept, compiler, source)
                yield Job("compiler-rt", os.path.relpath(source, TREE), run)
