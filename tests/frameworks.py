"""Test frameworks: a report names the test in which it comes. With a header of asancol this test fails, and the others
pass.

The sources are in examples/frameworks. docs/FARMS.md has the commands that build and run them.
"""

import json
import os
import re
import shutil
from typing import Any, Dict, List, NamedTuple, Tuple

from testing import TOP, LeftOut, Suite, expect, expect_in, write_text
from testing.programs import run

SOURCES = f"{TOP}/examples/frameworks"
PAGE = f"{TOP}/docs/FARMS.md"


class Framework(NamedTuple):
    source: str
    header: str  # that has to be there
    build: str
    fails: str  # what it prints of the test with the bug, a pattern
    passes: str  # and in its summary
    test: str  # that a report names; nothing: none


FRAMEWORKS = (
    Framework("googletest.cpp", "gtest/gtest.h", "asancol-c++ -g googletest.cpp -o tests -lgtest -lgtest_main",
              r"\[  FAILED  \] Words\.HaveRoom \(", "[  PASSED  ] 1 test.", "Words.HaveRoom"),
    Framework("catch2.cpp", "catch2/catch.hpp", "asancol-c++ -g catch2.cpp -o tests",
              r"HaveRoom\n(?s:.*)FAILED:", "test cases: 2 | 1 passed | 1 failed", "HaveRoom"),
    Framework("doctest.cpp", "doctest/doctest.h", "asancol-c++ -g doctest.cpp -o tests",
              r"TEST CASE:  HaveRoom\n(?s:.*)ERROR:", "test cases: 2 | 1 passed | 1 failed", "HaveRoom"),
    Framework("check.c", "check.h", "asancol-cc -g check.c -o tests -lcheck -lsubunit -lm",
              r":F:words:HaveRoom:", ":P:words:AreCopied:", ""),
)


# In a log of both outputs the report is where its test is.
ORDER = (r"\[ RUN +\] Words\.HaveRoom\n(?s:.*)ERROR: asancol: heap-buffer-overflow(?s:.*)"
         r"\n\[  FAILED  \] Words\.HaveRoom \(")


def build(framework: Framework, folder: str, settings: Dict[str, str]) -> None:
    if not os.path.exists(f"/usr/include/{framework.header}"):
        raise LeftOut(f"{framework.header} is not there")
    shutil.copytree(SOURCES, folder, dirs_exist_ok=True)
    built = run(framework.build.split(), folder, **settings)
    expect((built.returncode, built.stderr.decode()), (0, ""), "building")


def check_framework(suite: Suite, folder: str, framework: Framework, settings: Dict[str, str]) -> None:
    """The test with the bug fails, with the class of its report, and the other one passes."""
    build(framework, folder, settings)
    ran = run(["asancol-run", "-q", "--json", "result.jsonl", "--junit", "result.xml", "--", "./tests"], folder,
              **settings)
    said = (ran.stdout + ran.stderr).decode()
    expect(ran.returncode, 99, said)
    expect(re.search(framework.fails, said) is not None, True, said)
    expect_in(said, "asancol: heap-buffer-overflow\n", framework.passes)
    check_name(folder, framework.test, said)
    found = findings(folder)
    line = next(at for at, text in enumerate(open_lines(f"{SOURCES}/{framework.source}"), 1) if "BUG" in text)
    expect(line in [frame.get("line") for frame in found[0]["stack"]], True, "the line of the bug")
    if framework.source == "googletest.cpp":
        log = run(["sh", "-c", "asancol-run -q -- ./tests 2>&1"], folder, **settings).stdout.decode()
        expect(re.search(ORDER, log) is not None, True, log)
    alone = run(["./tests"], folder, ASANCOL_RUN="0", **settings)
    expect(alone.returncode, 0, "without checks")


def findings(folder: str) -> List[Dict[str, Any]]:
    with open(f"{folder}/result.jsonl", encoding="utf-8") as file:
        return [it for it in map(json.loads, file) if it["type"] == "finding"]


def check_name(folder: str, test: str, said: str) -> None:
    """Each report of the run `./tests` names the test, and this test alone has a case in JUnit."""
    expect([it.get("tests", []) for it in findings(folder)], [[test] if test else []] * len(findings(folder)), "tests")
    if test:
        expect_in(said, f"\n  in test {test}\n    #0 ")
    with open(f"{folder}/result.xml", encoding="utf-8") as file:
        cases = re.findall(r'<testcase classname="asancol" name="\./tests: (.*?)" [^>]*><failure', file.read())
    expect(cases, [test] if test else [], "test cases")


def check_harness(suite: Suite, folder: str, settings: Dict[str, str]) -> None:
    """A harness names the test of a process. A framework's test in it has its own name, and the harness's is back
    after it."""
    harness = dict(settings, ASANCOL_TEST="words of a library")
    shutil.copytree(SOURCES, folder, dirs_exist_ok=True)
    write_text(f"{folder}/tests.c", '#include "words.h"\nint main(void) { free(copy_of("longer", 6)); }\n')
    expect(run(["asancol-cc", "-g", "tests.c", "-o", "tests"], folder, **settings).returncode, 0, "building")
    ran = run(["asancol-run", "--json", "result.jsonl", "--junit", "result.xml", "--", "./tests"], folder, **harness)
    check_name(folder, harness["ASANCOL_TEST"], ran.stderr.decode())
    alone = run(["./tests"], folder, ASANCOL_RUN="1", **harness)
    expect_in(alone.stderr.decode(), "\n  in test words of a library\n")
    os.unlink(f"{folder}/tests.c")
    googletest = FRAMEWORKS[0]
    build(googletest, folder, settings)
    write_text(f"{folder}/late.cpp", '#include "words.h"\n__attribute__((destructor)) static void end() '
                                     '{ free(copy_of("last", 4)); }\n')
    expect(run([*googletest.build.split(), "late.cpp"], folder, **settings).returncode, 0, "building")
    ran = run(["asancol-run", "--json", "result.jsonl", "--", "./tests"], folder, **harness)
    named = {name for it in findings(folder) for name in it["tests"]}
    expect(named, {googletest.test, harness["ASANCOL_TEST"]}, "tests")


def check_crash(suite: Suite, folder: str, settings: Dict[str, str]) -> None:
    googletest = FRAMEWORKS[0]
    build(googletest, folder, settings)
    write_text(f"{folder}/googletest.cpp", "#include <asancol/googletest.h>\n"
                                           "TEST(Words, Crash) { *(volatile char *)8 = 1; }\n")
    expect(run(googletest.build.split(), folder, **settings).returncode, 0, "building")
    said = run(["asancol-run", "--", "./tests"], folder, **settings).stderr.decode()
    expect_in(said, "ended by SIGSEGV, by a store at address 0x8\n  in test Words.Crash\n    #0 ")


def check_pytest(suite: Suite, folder: str, settings: Dict[str, str]) -> None:
    """Tests of a shared object: each of two that meet one bug is named."""
    pytest = shutil.which("pytest") or shutil.which("pytest-3")
    if not pytest:
        raise LeftOut("pytest is not there")
    page = re.search(r"\| pytest.*?`(asancol-cc .*?)`.*`(PYTHONMALLOC=malloc) (asancol-run .*?)`",
                     "".join(open_lines(PAGE)))
    expect(page is not None, True, "lines on the page")
    building, variable, testing = page.groups() if page else ("", "", "")
    shutil.copytree(SOURCES, folder, dirs_exist_ok=True)
    expect(run(building.split(), folder, **settings).returncode, 0, "building")
    words = [pytest if word == "pytest" else word for word in testing.split()]
    words[1:1] = ["--json", "result.jsonl", "--junit", "result.xml"]
    ran = run(words, folder, **settings, **dict([variable.split("=")]))
    said = (ran.stdout + ran.stderr).decode()
    expect(ran.returncode, 99, said)
    both = [f"test_words.py::test_{name}_have_room" for name in ("words", "other_words")]
    expect_in(said, "3 passed", f"\n  in tests {' and '.join(both)}\n    #0 ")
    found = next(it for it in findings(folder) if it["access"] == "store")
    expect(found["tests"], both, "tests")
    with open(f"{folder}/result.xml", encoding="utf-8") as file:
        cases = re.findall(r'name="[^"]*: (test_words.py::\w+)" [^>]*><failure', file.read())
    expect(cases, both, "test cases")


def open_lines(path: str) -> Tuple[str, ...]:
    with open(path, encoding="utf-8") as file:
        return tuple(file)


def check_page(suite: Suite, folder: str, framework: Framework) -> None:
    """The page has the command, and the source the line that the page asks for."""
    page = "".join(open_lines(PAGE))
    header = re.sub(r"\.\w+$", "", framework.source) + ".h"
    expect_in(page, f"`{framework.build}`", f"`<asancol/{header}>`")
    expect_in("".join(open_lines(f"{SOURCES}/{framework.source}")), f"#include <asancol/{header}>\n")


def check_plain_build(suite: Suite, folder: str, settings: Dict[str, str]) -> None:
    """A build without asancol leaves the header out, as the page says it."""
    found = re.search(r"```c\n(#if __has_include.*?)```", "".join(open_lines(PAGE)), re.S)
    expect(found is not None, True, "lines on the page")
    write_text(f"{folder}/plain.cpp", (found[1] if found else "") + "int main() {}\n")
    expect(run(["c++", "-c", "plain.cpp"], folder).returncode, 0, "a plain build")


def add_tests(suite: Suite, settings: Dict[str, str]) -> None:
    suite.test("framework: plain build", check_plain_build, settings)
    suite.test("framework: name by a harness", check_harness, settings)
    suite.test("framework: name at a crash", check_crash, settings)
    suite.test("framework: pytest", check_pytest, settings)
    for framework in FRAMEWORKS:
        name = framework.source.split(".")[0]
        suite.test(f"page: framework {name}", check_page, framework)
        suite.test(f"framework: {name}", check_framework, framework, settings)
