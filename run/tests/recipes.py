"""Under test harnesses, what the recipes of examples/farms do not have: what hides a report, and what starts
programs."""

import os
import re
import shutil
import subprocess
from typing import List

from support import CC, REPORT, RUN, TOP, Suite, expect, expect_ran, leave_out
from testing.programs import call

SOURCE = """#include <stdlib.h>
int main(void) { volatile char *block = malloc(8); block[WHERE] = 1; free((void *)block); return 0; }
"""


def write_programs(folder: str) -> None:
    for name, where in (("good", "7"), ("bad", "8")):
        with open(f"{folder}/{name}.c", "w", encoding="utf-8") as file:
            file.write(SOURCE.replace("WHERE", where))


def write_cmake(suite: Suite, folder: str, *argv: str) -> None:
    write_programs(folder)
    with open(f"{folder}/CMakeLists.txt", "w", encoding="utf-8") as file:
        file.write("cmake_minimum_required(VERSION 3.10)\nproject(sample C)\ninclude(CTest)\n")
        for name in ("good", "bad"):
            file.write(f"add_executable({name} {name}.c)\nadd_test(NAME {name} COMMAND {name})\n")
    made = suite.run_argv(["cmake", "-B", "build", *argv], cwd=folder, CC=CC)
    expect(made.status, 0, made.err)
    made = suite.run_argv(["cmake", "--build", "build"], cwd=folder)
    expect(made.status, 0, made.out)


def check_hidden(suite: Suite, folder: str) -> None:
    """What WILL_FAIL and PASS_REGULAR_EXPRESSION hide from ctest, a run round it has seen."""
    write_cmake(suite, folder, f"-DCMAKE_CROSSCOMPILING_EMULATOR={RUN};-q;--")
    with open(f"{folder}/CMakeLists.txt", "a", encoding="utf-8") as file:
        file.write("set_tests_properties(bad PROPERTIES WILL_FAIL TRUE)\n")
        file.write("add_test(NAME prints COMMAND bad)\n")
        file.write("set_tests_properties(prints PROPERTIES PASS_REGULAR_EXPRESSION report)\n")
    made = suite.run_argv(["cmake", "--build", "build"], cwd=folder)
    expect(made.status, 0, made.out)
    ran = suite.run("--", "ctest", cwd=f"{folder}/build", ASANCOL_REPORT=REPORT)
    expect_ran(ran, 99, "2 reports at 1 place")
    expect("100% tests passed" in ran.out, True, ran.out)


def check_unittest(suite: Suite, folder: str) -> None:
    """Programs that a test of Python starts."""
    lines: List[str] = [
        "import subprocess, unittest",
        "class Started(unittest.TestCase):",
        f"    def test_it(self): subprocess.check_call([{suite.program!r}, 'child'])",
        "unittest.main()",
    ]
    with open(f"{folder}/unit.py", "w", encoding="utf-8") as file:
        file.write("\n".join(lines))
    packets = f"{folder}/packets"
    expect_ran(suite.run("--", "python3", f"{folder}/unit.py", FAKE_PACKETS=packets), 99, "OK")
    with open(packets, encoding="utf-8") as text:
        expect(text.read().count('"type": "process"'), 2, "processes")


def check_make(suite: Suite, folder: str) -> None:
    """make -j, whose jobs share a pipe that the command inherits."""
    with open(f"{folder}/Makefile", "w", encoding="utf-8") as file:
        file.write("all: $(foreach i,1 2 3 4 5 6 7 8,run-$(i))\nrun-%:\n\t@PROGRAM sound\n".replace("PROGRAM",
                                                                                                    suite.program))
    environment = suite.environment()
    argv = [RUN, "--", "make", "-s", "-j4"]
    ran = call(argv, cwd=folder, env=environment, stderr=subprocess.PIPE, stdout=subprocess.PIPE,
               check=False)
    expect((ran.returncode, ran.stdout.count(b"sound")), (0, 8), "make")
    expect(b"8 processes, 16 events; all complete" in ran.stderr, True, ran.stderr.decode())


def check_scale(suite: Suite, folder: str) -> None:
    """The commands of docs/SCALE.md keep the results that count, and merge them."""
    with open(f"{TOP}/docs/SCALE.md", encoding="utf-8") as page:
        commands = re.findall(r"^```sh\n(.*?)^```$", page.read(), re.M | re.S)
    expect(len(commands), 1, "scripts on the page")
    shutil.copytree(f"{TOP}/examples/farms/project", f"{folder}/project")
    path = f"{TOP}/recorder:{TOP}/run:{TOP}/report:{os.environ.get('PATH', os.defpath)}"
    ran = suite.run_argv(["sh", "-c", commands[0]], f"{folder}/project", PATH=path, ASANCOL_REPORT=REPORT)
    expect(ran.status, 1, ran.err)
    kept = [f"{name}.jsonl" for name in ("child", "join", "vendor", "wait")]
    expect(sorted(os.listdir(f"{folder}/project/results")), kept, "results")
    with open(f"{folder}/project/statuses.txt", encoding="utf-8") as statuses:
        expect(statuses.read().split()[1::2], ["0", "99", "99", "98", "98"], "statuses")
    expect("2 reports at 2 places; 4 processes in 4 runs" in ran.out, True, ran.out)


def tests(suite: Suite) -> None:
    suite.test("recipe: unittest", check_unittest)
    suite.test("recipe: scale", check_scale)
    for tool, name, run_it in (
        ("make", "make -j", check_make),
        ("ctest", "ctest that hides a report", check_hidden),
    ):
        if shutil.which(tool):
            suite.test(f"recipe: {name}", run_it)
        else:
            leave_out(f"{tool} is not there")
