"""A program may forbid to read a part of its stack: a walk over the stack passes over that."""

import os

from support import CC, REPORT, TESTS, Later, Suite, compilers_there, expect
from testing.programs import call

FLAGS = ("-O0", "-O2", "-O2 -fomit-frame-pointer")


def build(compiler: str, flags: str, program: str) -> None:
    os.makedirs(os.path.dirname(program), exist_ok=True)
    argv = [CC, "-g", *flags.split(), "-pthread", f"{TESTS}/forbidden.c", "-o", program]
    call(argv, check=True, env={**os.environ, "ASANCOL_CC": compiler})


def check_way(suite: Suite, folder: str, program: str, way: str) -> None:
    ran = suite.run("--leaks=no", "--", program, way, cwd=folder, ASANCOL_REPORT=REPORT)
    expect((ran.status, ran.out), (99, "end\n"), ran.err)
    expect(("asancol: 1 report " in ran.err, "all complete" in ran.err), (True, True), ran.err)


def check_raw(suite: Suite, folder: str, program: str) -> None:
    """Where the recorder does not know of it, the program dies in the recorder; its stack is not used up."""
    ran = suite.run("--leaks=no", "--", program, "raw", cwd=folder, ASANCOL_REPORT=REPORT)
    expect(("died in the recorder, by SIGSEGV" in ran.err, "used up" in ran.err, "stack-overflow" in ran.err),
           (True, False, False), ran.err)


def tests(suite: Suite) -> None:
    for compiler in compilers_there():
        for flags in FLAGS:
            name = f"{suite.folder}/{compiler}-forbidden{flags.replace(' ', '')}/forbidden"
            program = Later(name, build, compiler, flags, name)
            for way in ("main", "thread"):
                suite.test(f"{compiler} forbidden stack: {way} {flags}", check_way, program, way)
        suite.test(f"{compiler} forbidden stack: unknown", check_raw, program)
