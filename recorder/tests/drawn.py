"""Tests of programs whose operations are drawn (inline/drawn.c). What inline checks leave out makes no difference: the
proved checker finds in their recording what it finds if each access is recorded, in the same order, with one thread and
with several, in one segment and in many. So it does if blocks are stated only when a fault comes near them."""

import glob
import os
from typing import List, NamedTuple, Optional

from inline import make
from support import Compiler, Suite, expect, run
from testing.lines import lines_of

# How many operations a run has. Each makes some four events if all are recorded.
OPERATIONS = 100_000
SEEDS = (1, 2, 3)
# At least this many of them are bad.
LEAST = OPERATIONS // 200
# The smallest segment has room for all of this quarantine: so the same memory is handed out in any number of segments.
QUARANTINE = "100000"
# And this one, which a checker of a lean recording has, holds all that they free.
ALL_HELD = "268435456"
SEGMENTS = ("5000", "60000")


class Fault(NamedTuple):
    """The mistake of an event. Of memory outside the heap there is no address: that varies from build to build."""

    access: str
    size: Optional[int]
    at: Optional[int]
    bad: Optional[int]
    wrong: str
    shadow: str

    def somewhere(self) -> "Fault":
        """Without its addresses: lean recording hands out none twice."""
        return self._replace(at=None, bad=None)

    def bare(self) -> "Fault":
        """Without its class: in a segment it is another one if the block had left the quarantine before."""
        return self._replace(wrong="", shadow="")


def faults_of(suite: Suite, trace: str, quarantine: str) -> List[Fault]:
    """The faults of a process, in the order of its segments, each of which is whole."""
    front, end = os.path.splitext(trace)
    later = sorted(glob.glob(f"{front}.segment-*{end}"), key=lambda it: (len(it), it))
    found = []
    for path in [trace, *later]:
        said, ends = lines_of(run([suite.asancol, "check", "--quarantine", quarantine, path], ".").stdout)
        expect([it.fate for it in ends], ["closed"], path)
        for it in said:
            is_heap = it.class_name.startswith(("heap-", "use-after-", "bad-", "double-"))
            at, bad = (it.address, it.bad) if is_heap else (None, None)
            found.append(Fault(it.access, it.size, at, bad, it.class_name, it.shadow if is_heap else ""))
        os.unlink(path)
    return found


def recorded(suite: Suite, folder: str, program: str, seed: int, threads: int, quarantine: str = QUARANTINE,
             **settings: str) -> List[Fault]:
    """The faults of a run. Without random places the heap lies at the same ones in each."""
    trace = f"{program}-{seed}-{threads}.trace"
    argv = ["setarch", "-R", f"./{program}", str(seed), str(OPERATIONS), str(threads)]
    ran = run(argv, folder, ASANCOL_TRACE=trace, ASANCOL_QUARANTINE=quarantine, **settings)
    expect((ran.returncode, ran.stderr), (0, b""), " ".join(argv))
    is_lean = settings.get("ASANCOL_FULL") == "0" and program != "every"
    return faults_of(suite, f"{folder}/{trace}", ALL_HELD if is_lean else quarantine)


def check_drawn(suite: Suite, folder: str, compiler: Compiler, level: str, threads: int) -> None:
    """In lean recording a segment has the classes of a run that holds all that was freed."""
    for program, setting in (("inline", "0"), ("every", "1")):
        make(compiler, folder, "drawn.c", f"{folder}/{program}", level, ASANCOL_ALL=setting)
    for seed in SEEDS:
        wanted = recorded(suite, folder, "every", seed, threads)
        expect(len(wanted) > LEAST, True, f"{len(wanted)} are bad")
        expect_same(recorded(suite, folder, "inline", seed, threads), wanted, f"seed {seed}")
        wanted = [it.somewhere() for it in recorded(suite, folder, "every", seed, threads, ALL_HELD)]
        for limit in ("16777216", *SEGMENTS, "100"):
            found = recorded(suite, folder, "inline", seed, threads, ASANCOL_FULL="0", ASANCOL_LIMIT=limit)
            of = f"seed {seed}, lean, segments of at most {limit} events"
            expect_same([it.somewhere() for it in found], wanted, of)


def check_segments(suite: Suite, folder: str, compiler: Compiler, threads: int) -> None:
    """Segments have the faults of the run, except classes."""
    for program, setting in (("inline", "0"), ("every", "1")):
        make(compiler, folder, "drawn.c", f"{folder}/{program}", "-O1", ASANCOL_ALL=setting)
    for seed in SEEDS:
        wanted = [it.bare() for it in recorded(suite, folder, "every", seed, threads)]
        for limit in SEGMENTS:
            found = recorded(suite, folder, "inline", seed, threads, ASANCOL_LIMIT=limit)
            expect_same([it.bare() for it in found], wanted, f"seed {seed}, segments of {limit} events")


def expect_same(found: List[Fault], wanted: List[Fault], of: str) -> None:
    """The first difference is named, since the lists are long."""
    for number, (one, other) in enumerate(zip(found, wanted)):
        expect(one, other, f"{of}: fault {number} of {len(wanted)}")
    expect(len(found), len(wanted), f"{of}: how many faults there are")


def tests(suite: Suite, compiler: Compiler) -> None:
    for level in ("-O0", "-O2"):
        for threads in (1, 4):
            suite.test(f"{compiler} drawn {level} {threads}", check_drawn, compiler, level, threads)
    for threads in (1, 4):
        suite.test(f"{compiler} drawn segments {threads}", check_segments, compiler, threads)
