"""Tests of what the start of a process costs, a fork, an exec and an end; and that the modules of each are known all
the same, wherever they were loaded."""

import os
from functools import partial
from typing import Dict, List, NamedTuple, Tuple

from hub import NUMBERS, Hub, Peer, faults_of, lines_of, run_under
from support import TESTS, Compiler, Suite, build, expect, run
from testing import LeftOut

FLAGS = ("-O1", "-w", "-pthread", "-fno-optimize-sibling-calls")

# What a program does: the functions of the faults of each of its processes, in the order in which these connect.
FAULTS: Dict[str, List[List[str]]] = {
    "opens_in_child": [["fault_here"], ["fault_of_library"]],
    "opens_before": [[], ["fault_of_library"]],
    "forks_in_thread": [[], ["fault_of_library"]],
    "forks_in_handler": [[], ["fault_of_library"]],
    "forks_after_conversion": [[], ["fault_here"]],
    "closes_in_child": [[], ["fault_of_library", "fault_here"]],
    "execs_in_vain": [["fault_here", "fault_of_library", "fault_here"]],
    "has_other_title": [[], ["fault_here"]],
}


class Most(NamedTuple):
    """This many calls of the system more than the same program without the recorder may there be: from the start to the
    end of a process, if it has 1,000 blocks too, from a fork to the end of the child, for an exec that finds no file,
    and from a fork to an exec of the child."""

    start: int
    blocks: int
    fork: int
    vain: int
    exec: int


# By how it is recorded. Of each start that is recorded 54 are for the handlers of signals, one by one.
MOST: Dict[str, Most] = {
    "not": Most(50, 58, 12, 1, 8),
    "trace": Most(119, 127, 25, 1, 23),
    "trace with faults": Most(144, 147, 39, 1, 40),
    "trace with faults and leaks": Most(169, 173, 63, 1, 40),
    "hub": Most(120, 120, 40, 1, 40),
    "hub and leaks": Most(145, 146, 64, 1, 40),
}


def settings_of(kind: str, folder: str, hub: str) -> Dict[str, str]:
    settings = {}
    if "hub" in kind:
        settings["ASANCOL_HUB"] = hub
    if "trace" in kind:
        settings["ASANCOL_TRACE"] = f"{folder}/%p.trace"
    if "faults" in kind:
        settings["ASANCOL_WHERE"] = "1"
    if "leaks" in kind:
        settings["ASANCOL_LEAKS"] = "1"
    return settings


def counted(folder: str, program: str, does: str, **settings: str) -> List[Tuple[int, int]]:
    """Runs a program, and says of each process, and each program that it became, how many calls it has made."""
    ran = run(["./count_calls", "calls", program, does], folder, **settings)
    expect((ran.returncode, ran.stderr), (0, b""), f"{program} {does}")
    with open(f"{folder}/calls", encoding="ascii") as file:
        return [(int(number), int(calls)) for number, calls in map(str.split, file)]


def counts_of(folder: str, program: str, **settings: str) -> Most:
    found = {does: counted(folder, program, does, **settings)
             for does in ("nothing", "has_blocks", "forks_once", "tries_many", "execs_once")}
    start = found["nothing"][0][1]
    child, becoming = (next(calls for number, calls in found[does] if number == 1)
                       for does in ("forks_once", "execs_once"))
    return Most(start, found["has_blocks"][0][1], child, round((found["tries_many"][0][1] - start) / 100), becoming)


def check_calls(suite: Suite, folder: str, compiler: Compiler, program: str) -> None:
    build([compiler.name, "-O1", f"{TESTS}/count_calls.c", "-o", "count_calls"], folder)
    if run(["./count_calls", "calls", "/bin/true"], folder).returncode != 0:
        raise LeftOut("no process may be traced here")
    compiler.c(folder, [f"{TESTS}/processes.c"], "plain", *FLAGS, native=True)
    plain = counts_of(folder, "./plain")
    for kind, most in MOST.items():
        with Hub(f"{folder}/hub{next(NUMBERS)}") as hub:
            found = counts_of(folder, program, **settings_of(kind, folder, hub.path))
        more = Most(*(ours - theirs for ours, theirs in zip(found, plain)))
        for what, ours, allowed in zip(Most._fields, more, most):
            expect(ours <= allowed, True, f"{kind}: {what}: {ours} calls more, and at most {allowed} are allowed")


def run_program(folder: str, program: str, does: str) -> List[Peer]:
    peers, said = run_under(folder, [program, does])
    expect(said, b"", f"what {does} has said")
    return peers


def check_modules(suite: Suite, folder: str, program: str, does: str) -> None:
    os.symlink(f"{program}.so", f"{folder}/libopened.so")
    peers = run_program(folder, program, does)
    if does == "forks_after_conversion" and not any("/gconv/" in it.path for it in peers[0].side().maps):
        raise LeftOut("the C library opens no module for a conversion")
    found = [[lines_of(peer.side(), fault) for fault in faults_of(peer)] for peer in peers]
    expect(found, [[[name, name] for name in names] for names in FAULTS[does]], does)
    last = peers[-1].side()
    if does == "forks_after_conversion":
        expect(any("/gconv/" in it.path for it in last.maps), True, "the module of the C library's")
    if does == "has_other_title":
        expect([peer.side().argv()[0].startswith("tttt") for peer in peers], [False, True], "titles")


def build_program(compiler: Compiler, folder: str, sources: List[str], program: str, *flags: str) -> None:
    compiler.c(folder, sources, program, *FLAGS, *flags)
    compiler.c(folder, [f"{TESTS}/processes_library.c"], f"{program}.so", "-O1", "-fPIC", "-shared", "-Wl,-z,defs")


def tests(suite: Suite, compiler: Compiler) -> None:
    program = suite.built(partial(build_program, compiler), [f"{TESTS}/processes.c"], f"processes-{compiler}")
    suite.test(f"{compiler} processes: calls", check_calls, compiler, program)
    for does in FAULTS:
        suite.test(f"{compiler} processes: {does}", check_modules, program, does)
