"""A process sees the descriptors that it has alone, and none of the recorder's."""

import os
import subprocess
from typing import List

from support import CC, REPORT, TESTS, Later, Suite, compilers_there, expect
from testing.programs import call

WAYS = ("", "allocates", "opens", "takes", "lowers", "closes", "closes_range", "closes_from")
# The limit of open files says where the recorder's are: past what the process may open, or else within it.
PAST, WITHIN = "ulimit -Sn 256; ulimit -Hn 1500", "ulimit -n 1500"


def build(compiler: str, program: str) -> None:
    os.makedirs(os.path.dirname(program), exist_ok=True)
    for command, name in ((CC, program), (compiler, f"{program}-alone")):
        argv = [command, "-g", "-O1", f"{TESTS}/descriptors.c", "-o", name]
        call(argv, check=True, env={**os.environ, "ASANCOL_CC": compiler})


def limited(limits: str, *argv: str) -> List[str]:
    return ["sh", "-c", f'{limits}; exec "$@"', "sh", *argv]


def check_way(suite: Suite, folder: str, program: str, way: str) -> None:
    for limits in (PAST, WITHIN):
        if (way, limits) == ("opens", WITHIN):
            continue  # one of the numbers is the recorder's
        argv = limited(limits, f"{program}-alone", way, "bug")
        alone = call(argv, cwd=folder, stdin=subprocess.DEVNULL, stdout=subprocess.PIPE, text=True, check=True)
        argv = ["--leaks=no", "--", *limited(limits, program, way, "bug")]
        ran = suite.run(*argv, cwd=folder, ASANCOL_REPORT=REPORT)
        expect(ran.out, alone.stdout, f"{limits}: {ran.err}")
        expect(("asancol: 1 report " in ran.err, "all complete" in ran.err), (True, True), ran.err)


def tests(suite: Suite) -> None:
    for compiler in compilers_there():
        name = f"{suite.folder}/{compiler}-descriptors/descriptors"
        program = Later(name, build, compiler, name)
        for way in WAYS:
            suite.test(f"{compiler} own descriptors: {way or 'nothing'}", check_way, program, way)
