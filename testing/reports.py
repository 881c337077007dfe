"""Runs of asancol-report: on traces that are written here, and fed as asancol-run feeds it."""

import array
import functools
import json
import os
import shutil
import socket
import subprocess
from typing import Any, Callable, Dict, Optional, Sequence

from asancol_report import option_table
from .expectations import LeftOut
from .programs import REPORT, Ran, Started, call, environment, write_text
from .side import Parts, Program, fault, fill, look_at, of_program, write_side
from .suite import Suite, test

# All output forms of asancol-report beside its text, as its options name them.
FORMS = tuple(it.lstrip("-") for it in option_table.OUTPUTS)

# No reading may take longer, in seconds.
PATIENCE = 120

# Lines of asancol.
OVERFLOW = "p0 #2 store 1 at 000000002005 bad 000000002005 heap-buffer-overflow shadow 05\n"
FREED = "p0 #5 load 4 at 000000002000 bad 000000002000 heap-use-after-free shadow fd\n"
END = "p0 end closed events 9 offset 99 reports 1\n"

PLACES_C = r"""
#include <stdio.h>
#include <stdlib.h>
#include <unistd.h>
__attribute__((noinline)) void here(const char *name) { printf("%s %p\n", name, __builtin_return_address(0)); }
static inline __attribute__((always_inline)) void use(void) {
    here("use"); /* <b>&"quoted"</b> */
}
__attribute__((noinline)) void make(void) {
    here("make");
    __asm__ volatile("");
}
__attribute__((noinline)) void drop(void) {
    here("drop");
    __asm__ volatile("");
}
int main(void) {
    use();
    make();
    drop();
    fflush(stdout);
    char room[65536];
    FILE *maps = fopen("/proc/self/maps", "r");
    size_t length = fread(room, 1, sizeof room, maps);
    fwrite(room, 1, length, stdout);
    return 0;
}
"""


def build(folder: str, name: str = "program", source: str = PLACES_C, *flags: str) -> Program:
    if not shutil.which("gcc"):
        raise LeftOut("gcc is not there")
    path = f"{folder}/{name}"
    write_text(f"{path}.c", source)
    call(["gcc", "-g", "-O1", "-Wl,--build-id", *flags, f"{path}.c", "-o", path], check=True)
    return look_at(path)


def write_trace(folder: str, name: str, verdicts: str, parts: Optional[Parts] = None) -> str:
    """Writes a trace that the checker of these tests knows, and its side file."""
    path = os.path.join(folder, name)
    for end, text in (("", name), (".verdicts", verdicts)):
        with open(path + end, "wb") as file:
            file.write(text.encode("utf-8", "surrogateescape"))
    if parts is not None:
        write_side(path + ".where", parts)
    return path


def freed_block(program: Program, **more: Any) -> bytes:
    places = program.places
    return fault(places["use"], 0x2000, 16, places["make"], places["drop"], **more)


def one_trace(folder: str) -> str:
    """A trace with a loop of 3 loads from a freed block, and an overflow."""
    program = build(folder)
    faults = [freed_block(program), fault(program.places["drop"], 0x2000, 5, program.places["make"])]
    lines = "".join(FREED.replace("#5", f"#{event}") for event in (5, 6, 7))
    parts = of_program(program, faults, [0, 2, 0, 0, 1, 1, 1], argv=["./program", "an argument"])
    return write_trace(folder, "a.trace", OVERFLOW + lines + END, parts)


# What stands for asancol: it prints the verdicts that lie beside a trace.
CHECKER = """#!/bin/sh
[ "$1" = check ] || [ $# = 0 ] || exit 2
cat "$(readlink /proc/self/fd/0).verdicts"
"""


def write_checker(folder: str) -> None:
    write_text(f"{folder}/asancol", CHECKER, 0o755)


def report_test(function: Callable[[str], None]) -> Callable[..., None]:
    """Says that a function is a test of asancol-report: it gets a folder in which there is a checker."""
    @functools.wraps(function)
    def run(suite: Suite, folder: str) -> None:
        write_checker(folder)
        function(folder)

    return test(run)


def settings_in(folder: str, **settings: str) -> Dict[str, str]:
    """Returns the environment in which the checker of a folder is asancol."""
    return environment(**{"ASANCOL": f"{folder}/asancol", **settings})


def report(folder: str, *argv: str, stdin: object = subprocess.DEVNULL, **settings: str) -> Ran:
    ran = call([REPORT, *argv], cwd=folder, env=settings_in(folder, **settings), stdin=stdin,  # type: ignore
               stdout=subprocess.PIPE, stderr=subprocess.PIPE, check=False, timeout=PATIENCE)
    return Ran(ran.returncode, ran.stdout.decode("utf-8", "surrogateescape"), ran.stderr.decode())


def memory(text: bytes = b"") -> int:
    descriptor = os.memfd_create("test")
    os.write(descriptor, text)
    return descriptor


class Feed:
    """A run whose packets go to an asancol-report."""

    def __init__(self, folder: str, *argv: str, **settings: str) -> None:
        self.ours, theirs = socket.socketpair(socket.AF_UNIX, socket.SOCK_SEQPACKET)
        self.child = Started([REPORT, "--run", *argv], cwd=folder, env=settings_in(folder, **settings),
                             stdin=theirs.fileno(), stdout=subprocess.PIPE, stderr=subprocess.PIPE)
        theirs.close()

    def send(self, entry: object, *descriptors: int) -> None:
        text = json.dumps(entry).encode() if isinstance(entry, dict) else bytes(str(entry), "utf-8")
        rights = [(socket.SOL_SOCKET, socket.SCM_RIGHTS, array.array("i", descriptors))] if descriptors else []
        self.ours.sendmsg([text], rights)
        for each in descriptors:
            os.close(each)

    def begin(self, identity: str = "run-1", command: Sequence[str] = ("make", "check")) -> None:
        self.send({"type": "run", "version": 1, "command": list(command), "host": "box", "directory": "/tmp",
                   "id": identity, "time": 1700000000})

    def asking(self, number: int, verdicts: str, parts: Parts, is_gone: bool = False, **more: object) -> str:
        """Gives data on a process that waits for its report in words, and returns these."""
        waiting, asked = socket.socketpair()
        with waiting:
            self.process(number, verdicts, parts, asked.detach(), asks=True, **more)
            waiting.settimeout(PATIENCE)
            return "" if is_gone else b"".join(iter(lambda: waiting.recv(1 << 16), b"")).decode()

    def process(self, number: int, verdicts: str = "", parts: Optional[Parts] = None, *others: int,
                **more: object) -> None:
        lines = verdicts.count("\n") - 1 if verdicts else 0
        entry = {"type": "process", "n": number, "pid": 100 + number, "parent": 1, "fate": "closed", "events": 9,
                 "reports": lines, "whole": True, "left_out": 0, "why": "", "command": ["./program"], **more}
        descriptors = [memory(verdicts.encode())] if verdicts else []
        if parts is not None:
            descriptors.append(fill(memory(), parts))
        self.send(entry, *descriptors, *others)

    def end(self, **more: object) -> Ran:
        self.send({"type": "end", "seconds": 1.5, "status": 0, "signal": 0, "nothing": False, "missing": 0,
                   "running": False, **more})
        return self.finish()

    def finish(self) -> Ran:
        self.ours.close()
        text, errors = self.child.communicate(timeout=PATIENCE)
        return Ran(self.child.returncode, text.decode("utf-8", "surrogateescape"), errors.decode())
