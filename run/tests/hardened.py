"""How the programs in C are built: what they read is strangers'."""

import os
import re
import shutil

from support import CC, TOP, Suite, expect, leave_out
from testing.programs import call

PRELOADED = f"{TOP}/recorder/libasancol_preload.so"
# The output of readelf on a program, and on the preloaded library.
HELD_FAST = (r"GNU_RELRO", r"BIND_NOW|FLAGS_1.*NOW")
OF_PROGRAMS = (*HELD_FAST, r"FLAGS_1.*PIE", r"__stack_chk_fail", r"__v?snprintf_chk")


def check_hardened(suite: Suite, folder: str) -> None:
    """Canaries, checked sizes, addresses that differ, and tables that can't be written; and no path of the tree."""
    for path, wanted in ((f"{TOP}/run/asancol-run", OF_PROGRAMS), (CC, OF_PROGRAMS), (PRELOADED, HELD_FAST)):
        argv = ["readelf", "--program-headers", "--dynamic", "--dyn-syms", "--wide", path]
        text = call(argv, capture_output=True, text=True, check=True).stdout
        expect([it for it in wanted if not re.search(it, text)], [], path)
        with open(path, "rb") as file:
            expect(os.fsencode(TOP) in file.read(), False, f"a path of the tree in {path}")


def tests(suite: Suite) -> None:
    if shutil.which("readelf"):
        suite.test("hardened programs", check_hardened)
    else:
        leave_out("readelf is not there")
