"""Waits of tests without a limit, of which one can hold up all others for ever. Those of testing/programs.py have one.
"""

import ast
import re
from typing import Iterator, List, Tuple

from files import TOP
from testing.suite import HAS_TESTS

Finding = Tuple[str, int, str]

SUITES = re.compile(r"(?:recorder|run|report)/tests/\w+\.py")
# What the helpers of all tests are made of, and measures.
HELPERS = re.compile(r"testing/(?!programs|measuring)\w+\.py|\w+/tests/support\.py")
STARTS = re.compile(r"subprocess\.(?:run|Popen|call|check_call|check_output)")


def waits_in(text: str) -> Iterator[Tuple[int, str]]:
    """Goes over the lines of a module with such a wait, and what to take for it."""
    for node in ast.walk(ast.parse(text)):
        if not isinstance(node, ast.Call):
            continue
        called = ast.unparse(node.func)
        if STARTS.fullmatch(called):
            yield node.lineno, f"{called} may wait for ever: testing.programs has call and Started"
        elif called.endswith(".accept") and not node.args:
            yield node.lineno, "nobody may come: testing.programs has accept"
        elif called == "threading.Thread" and all(it.arg != "daemon" for it in node.keywords):
            yield node.lineno, "Python waits at its end for a thread that is no daemon"


def findings(files: List[str]) -> Iterator[Finding]:
    for path in files:
        if not SUITES.fullmatch(path) and not HELPERS.fullmatch(path):
            continue
        with open(f"{TOP}/{path}", encoding="utf-8") as file:
            text = file.read()
        if HELPERS.fullmatch(path) or HAS_TESTS.search(text):
            yield from ((path, line, what) for line, what in sorted(waits_in(text)))
