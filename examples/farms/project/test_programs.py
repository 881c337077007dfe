"""Each program is a test of pytest."""

import subprocess

import pytest


@pytest.mark.parametrize("name", ["split", "join", "child", "wait", "vendor"])
def test_program(name: str) -> None:
    assert subprocess.run([f"./{name}"], timeout=2, check=False).returncode == 0
