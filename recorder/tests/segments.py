"""Tests of what goes on past the limit of events: each segment is a whole trace, and has its bugs, once."""

import glob
import os
import random
import time
from typing import Dict, List, NamedTuple, Tuple

import hub
from support import TESTS, Compiler, Suite, Trace, environment, expect, leave_out, reports, run, side_of, traces
from testing import wait_until
from testing.programs import Started
from testing.side import EXIT, SEGMENT




class Segment(NamedTuple):
    """What a checker says of the trace of a segment."""

    path: str
    lines: List[str]

    def is_closed(self) -> bool:
        return self.lines[-1].split()[2] == "closed"


def segments_of(suite: Suite, trace: str) -> List[Segment]:
    """The segments of a trace, in their order."""
    front, end = os.path.splitext(trace)
    paths = [trace] if os.path.exists(trace) else []
    paths += sorted(glob.glob(f"{front}.segment-*{end}"), key=lambda it: (len(it), it))
    return [it for first in range(0, len(paths), 50) for it in checked(suite, paths[first : first + 50])]


def checked(suite: Suite, paths: List[str]) -> List[Segment]:
    lines: List[List[str]] = [[] for _ in paths]
    for line in run([suite.asancol, "check", *paths], ".").stdout.decode().splitlines():
        words = line.split()
        if words[0] != "total":
            lines[int(words[0][1:])].append(line)
    return [Segment(*it) for it in zip(paths, lines)]


def record(suite: Suite, folder: str, argv: List[str], limit: int, status: int = 0, **settings: str) -> List[Segment]:
    """Runs a program with a small limit: all its segments are closed, and it says nothing."""
    for old in glob.glob(f"{folder}/t.*trace*"):
        os.unlink(old)
    ran = run(argv, folder, ASANCOL_TRACE="t.trace", ASANCOL_LIMIT=str(limit), **settings)
    expect((ran.returncode, ran.stderr), (status, b""), " ".join(argv))
    return segments_of(suite, f"{folder}/t.trace")


def expect_closed(segments: List[Segment]) -> None:
    expect([it.path for it in segments if not it.is_closed()], [], "segments that are not closed")


def texts_of(suite: Suite, segments: List[Segment]) -> List[str]:
    """The reports of segments that are all closed, as the tests write them."""
    expect_closed(segments)
    return [text for it in segments if len(it.lines) > 1 for text in reports(suite.asancol, it.path)[1]]


def kinds_of(segments: List[Segment]) -> Dict[str, int]:
    """How many reports there are of each kind of access and each class."""
    expect_closed(segments)
    words = [line.split() for it in segments for line in it.lines[:-1]]
    kinds = [f"{it[2]} {it[-3]}" for it in words]
    return {it: kinds.count(it) for it in kinds}


def of_blocks(path: str, stated: int) -> List[Tuple[int, int, int]]:
    """The mallocs and frees of a segment after its snapshot. The allocator may need less memory with it."""
    return [it for it in Trace(path).events[stated:] if it[0] in (traces.MALLOC, traces.FREE)]


def check_count(suite: Suite, folder: str, program: str) -> None:
    """3, 30 and 300 segments: no report, and each event is there once."""
    for limit, least in ((8000, 2), (1000, 25), (200, 150)):
        segments = record(suite, folder, [program, "blocks", "8000", "-1"], limit, ASANCOL_WHERE="1")
        expect(texts_of(suite, segments), [], f"reports with {limit}")
        expect(len(segments) >= least, True, f"{len(segments)} segments with {limit}")
        sides = [side_of(it.path) for it in segments]
        expect([it.segment for it in sides], list(range(1, len(segments) + 1)), "numbers of segments")
        expect(len({(it.process, it.parent, it.started) for it in sides}), 1, "processes")
        expect([it.ending for it in sides], [SEGMENT] * (len(sides) - 1) + [EXIT], "endings")
        expect({it.is_at_limit + it.left_out for it in sides}, {0}, "what was left out")
        events = [len(of_blocks(segment.path, it.stated)) for segment, it in zip(segments, sides)]
        run([program, "blocks", "8000", "-1"], folder, ASANCOL_TRACE="whole.trace")
        expect(sum(events), len(of_blocks(f"{folder}/whole.trace", 0)), "mallocs and frees")
        os.unlink(f"{folder}/whole.trace")


def check_moments(suite: Suite, folder: str, program: str) -> None:
    """A bug at each of 50 random moments is found, once, in its segment."""
    draws = random.Random(1)
    for _ in range(50):
        limit, bad = draws.randrange(150, 2000), draws.randrange(3000)
        segments = record(suite, folder, [program, "blocks", "3000", str(bad)], limit)
        expect(texts_of(suite, segments), [f"store 1 +{8 + bad % 100} heap-buffer-overflow"], f"at {bad} with {limit}")


EARLY = [
    "store 1 +3 heap-use-after-free",
    "free +0 double-free",
    "store 1 +40 heap-buffer-overflow",
    "store 1 +8 use-after-poison",
    "store 1 +50999 use-after-poison",
    "store 1 +60000 use-after-poison",
    "store 1 +70063 use-after-poison",
    "store 1 +100000 heap-buffer-overflow",
]


def check_early(suite: Suite, folder: str, program: str) -> None:
    """What stands since the first segment has the same verdicts in the last."""
    for limit, least in ((1 << 24, 1), (3000, 3), (300, 20), (30, 200)):
        segments = record(suite, folder, [program, "early", "3000", "0"], limit)
        expect(texts_of(suite, segments), ["store 1 +1 use-after-poison", *EARLY], f"with {limit}")
        expect(len(segments) >= least, True, f"{len(segments)} segments with {limit}")


def check_long_ago(suite: Suite, folder: str, program: str) -> None:
    """An access to memory released before the segment began is found."""
    segments = record(suite, folder, [program, "long_ago", "3000", "0"], 500)
    expect(kinds_of(segments), {"store use-after-poison": 1}, "reports")


def check_variables(suite: Suite, folder: str, program: str) -> None:
    """Redzones and poison outside of blocks."""
    for limit in (1 << 24, 2000, 300):
        segments = record(suite, folder, [program, "variables", "3000", "10"], limit, ASANCOL_WHERE="1")
        classes = ("stack-buffer-overflow", "global-buffer-overflow", "use-after-poison")
        expect(kinds_of(segments), {f"store {it}": 300 for it in classes}, f"with {limit}")
    for limit in (1000, 100):
        segments = record(suite, folder, [program, "poisons", "3000", "5"], limit)
        expect(kinds_of(segments), {"store use-after-poison": 600}, f"in a block, with {limit}")


def check_live_and_held(suite: Suite, folder: str, program: str) -> None:
    """Live blocks nearly fill the room of a snapshot, and of the freed ones as many are held as fit beside them."""
    for held in ("480", "4000"):
        segments = record(suite, folder, [program, "live_and_held", "600", "190"], 400, ASANCOL_QUARANTINE=held)
        expect_closed(segments)


def check_many_live(suite: Suite, folder: str, program: str) -> None:
    """If half of a segment would be its snapshot, the recording ends at the limit."""
    ran = run([program, "many_live", "5000", "0"], folder, ASANCOL_TRACE="t.trace", ASANCOL_LIMIT="1000")
    expect((ran.returncode, len(ran.stderr.splitlines())), (0, 1), ran.stderr)
    segments = segments_of(suite, f"{folder}/t.trace")
    expect([it.is_closed() for it in segments], [True, False], "closes")
    expect(segments[-1].lines[-1].split()[2], "no-close", "the last end")


def check_kept(suite: Suite, folder: str, program: str) -> None:
    """The newest two are kept, with what stands beside them. Files of others stay."""
    with open(f"{folder}/t.segment-004.trace", "w") as file:
        file.write("mine")
    settings = {"ASANCOL_TRACE": "t.trace", "ASANCOL_LIMIT": "500", "ASANCOL_WHERE": "1", "ASANCOL_SEGMENTS": "2"}
    expect(run([program, "blocks", "2000", "-1"], folder, **settings).stderr, b"", "what it says")
    names = sorted(os.listdir(folder))
    expect(len(names), 5, names)
    expect("t.segment-004.trace" in names, True, names)
    sides = [side_of(f"{folder}/{it[:-6]}") for it in names if "where" in it]
    numbers = sorted(it.segment for it in sides)
    expect((numbers[1] - numbers[0], numbers[0] > 6), (1, True), "the newest two")


def check_children(suite: Suite, folder: str, program: str) -> None:
    """A forked child begins with its own first segment, and what fails to run another program goes on."""
    for limit in (1 << 24, 700, 300):
        for old in glob.glob(f"{folder}/*.trace"):
            os.unlink(old)
        ran = run([program, "children", "500", "400"], folder, ASANCOL_TRACE="%p.trace", ASANCOL_LIMIT=str(limit))
        expect((ran.returncode, ran.stderr), (0, b""), f"with {limit}")
        kinds = []
        for first in glob.glob(f"{folder}/*.trace"):
            if "segment" not in first:
                segments = segments_of(suite, first)
                kinds.append([it.split()[-1] for it in texts_of(suite, segments)])
        past, after = "heap-buffer-overflow", "heap-use-after-free"
        if limit < 1000:
            kinds = [[after if it == "use-after-poison" else it for it in of] for of in kinds]
        expect(sorted(kinds, key=len), [[past], [past, after, past], [past, after, past]], f"with {limit}")


def check_killed(suite: Suite, folder: str, program: str) -> None:
    """Whatever was closed before SIGKILL stays closed, and the last segment is not."""
    segments = record(suite, folder, [program, "is_killed", "2000", "0"], 500, -9)
    expect([it.is_closed() for it in segments], [True] * (len(segments) - 1) + [False], "closes")
    expect(len(segments) > 3, True, f"{len(segments)} segments")


def check_killed_anywhere(suite: Suite, folder: str, program: str) -> None:
    """SIGKILL at a random moment, which is in a switch as often as not: the rest does not read as complete."""
    draws = random.Random(1)
    for _ in range(20):
        for old in glob.glob(f"{folder}/t.*"):
            os.unlink(old)
        settings = environment(ASANCOL_TRACE="t.trace", ASANCOL_LIMIT="200", ASANCOL_SEGMENTS="50")
        with Started([program, "threads", "100000000", "-1"], cwd=folder, env=settings) as process:
            try:
                # The first may be gone again before it is seen: the newest are kept.
                wait_until(lambda: bool(glob.glob(f"{folder}/t.*")), "a trace")
                time.sleep(draws.random() / 5)
            finally:
                process.kill()
        segments = segments_of(suite, f"{folder}/t.trace")
        expect(segments[-1].is_closed(), False, f"a close of the last of {len(segments)}")


def check_no_room(suite: Suite, folder: str, program: str) -> None:
    """The next file can't be made: the recording ends, with a line, and its last trace is not closed."""
    path = f"{'n' * 244}.trace"  # there is no room in a name for the number of a segment
    ran = run([program, "blocks", "1000", "-1"], folder, ASANCOL_TRACE=path, ASANCOL_LIMIT="500")
    expect((ran.returncode, len(ran.stderr.splitlines())), (0, 1), ran.stderr)
    segments = segments_of(suite, f"{folder}/{path}")
    expect([it.is_closed() for it in segments], [False], "closes")


def check_full_disk(suite: Suite, folder: str, program: str) -> None:
    """The disk is full at the first switch, and at a later one: the segments before are whole, the recording ends with
    a line, and its last trace is not closed."""
    for room, limit, mallocs, closed in (("1200k", 1000, 8000, 0), ("4m", 60000, 400000, 1)):
        lines = (
            f"mkdir {room} && mount -t tmpfs -o size={room} none {room} || exit 9",
            f"ASANCOL_TRACE={room}/t.trace ASANCOL_LIMIT={limit} {program} blocks {mallocs} -1 || exit 8",
            f"mkdir of-{room} && cp {room}/* of-{room}",
        )
        ran = run(["unshare", "-rm", "sh", "-c", "\n".join(lines)], folder)
        expect((ran.returncode, len(ran.stderr.splitlines())), (0, 1), ran.stderr)
        expect(b"recording ends" in ran.stderr and b"No space left" in ran.stderr, True, ran.stderr)
        segments = segments_of(suite, f"{folder}/of-{room}/t.trace")
        expect(len(segments) > closed, True, f"{len(segments)} segments in {room}")
        expect([it.is_closed() for it in segments], [True] * (len(segments) - 1) + [False], f"closes in {room}")


def check_threads(suite: Suite, folder: str, program: str) -> None:
    """Four threads: no report but that of the bug, in few segments and in many."""
    for limit, least in ((20000, 2), (2000, 15), (400, 100)):
        for bad in (-1, 1234):
            wanted = [f"store 1 +{8 + bad % 100} heap-buffer-overflow"] if bad >= 0 else []
            segments = record(suite, folder, [program, "threads", "3000", str(bad)], limit)
            expect(texts_of(suite, segments), wanted, f"with {limit}")
            expect(len(segments) >= least, True, f"{len(segments)} segments with {limit}")


def check_wrong_threads(suite: Suite, folder: str, program: str) -> None:
    """Four threads that go wrong in each round: each of these accesses is found once, with its place. In a small
    segment little is held, and a block may be given again before the access to it comes."""
    for limit, least in ((20000, 2000), (2000, 1990), (400, 1900)):
        segments = record(suite, folder, [program, "wrong_threads", "500", "0"], limit, ASANCOL_WHERE="1")
        kinds = kinds_of(segments)
        after_free = kinds.pop("load heap-use-after-free", 0) + kinds.pop("load use-after-poison", 0)
        expect(kinds, {"store stack-buffer-overflow": 2000, "store use-after-poison": 2000}, f"with {limit}")
        expect(least <= after_free <= 2000, True, f"{after_free} after a free, with {limit}")
        for segment in segments:
            side, numbers = side_of(segment.path), [int(it.split()[1][1:]) for it in segment.lines[:-1]]
            expect([it for it in numbers if side.fault_at(it) is None], [], f"without a place in {segment.path}")


def check_handlers(suite: Suite, folder: str, program: str) -> None:
    """A timer's handler allocates, whatever it interrupts."""
    for limit in (20000, 2000, 400):
        segments = record(suite, folder, [program, "handlers", "20000", "12345"], limit)
        expect(texts_of(suite, segments), ["store 1 +53 heap-buffer-overflow"], f"with {limit}")


def check_hub(suite: Suite, folder: str, program: str) -> None:
    """A hub gets a connection and side memory for each segment, of one process."""
    cases = (("blocks 8000 4000", 3000), ("threads 3000 4", 1000), ("early 900 0", 30))
    for name, limit in cases:
        words = name.split()
        peers, said = hub.run_under(folder, [program, *words], ASANCOL_LIMIT=str(limit), ASANCOL_FULL="1")
        sides = [it.side() for it in peers]
        expect((said, len(peers) > 5), (b"", True), f"{len(peers)} connections of {words}")
        expect([it.segment for it in sides], list(range(1, len(peers) + 1)), "numbers of segments")
        expect(len({(it.process, it.parent, it.started) for it in sides}), 1, "processes")
        expect([it.ending for it in sides], [SEGMENT] * (len(sides) - 1) + [EXIT], "endings")
        expect([it.trace().is_closed for it in peers], [True] * len(peers), "closes")
        expect([it.events for it in sides], [len(it.trace().events) for it in peers], "events")
        faults = [fault for it in sides for fault in it.faults()]
        expect(len(faults), 9 if words[0] == "early" else 1, "faults")
        expect(all(len(it.place) > 1 and len(it.allocated) > 1 for it in faults), True, "stacks")


def check_hub_that_leaves(suite: Suite, folder: str, program: str) -> None:
    """The hub is gone at a switch: the process goes on, and a line says that the recording ends."""
    argv = [program, "removes_hub", "8000", "-1"]
    with hub.Hub(f"{folder}/hub", has_abstract=False) as listening:
        ran = run(argv, folder, ASANCOL_HUB=listening.path, ASANCOL_LIMIT="3000", ASANCOL_FULL="1")
        peers = listening.close()
    expect((ran.returncode, len(peers), len(ran.stderr.splitlines())), (0, 1, 1), ran.stderr)
    side = peers[0].side()
    expect((side.ending, peers[0].trace().is_closed), (SEGMENT, True), "its ending")


def tests(suite: Suite, compiler: Compiler) -> None:
    program = suite.built(compiler.c, [f"{TESTS}/segments.c"], f"segments-{compiler}", "-O1", "-w", "-pthread")
    cases = [
        ("count", check_count),
        ("moments", check_moments),
        ("early", check_early),
        ("long ago", check_long_ago),
        ("variables", check_variables),
        ("many live", check_many_live),
        ("live and held", check_live_and_held),
        ("kept", check_kept),
        ("children", check_children),
        ("killed", check_killed),
        ("threads", check_threads),
        ("threads that go wrong", check_wrong_threads),
        ("handlers", check_handlers),
        ("hub", check_hub),
        ("hub that leaves", check_hub_that_leaves),
        ("killed anywhere", check_killed_anywhere),
        ("no room", check_no_room),
    ]
    if run(["unshare", "-rm", "true"], suite.folder).returncode == 0:
        cases.append(("full disk", check_full_disk))
    else:
        leave_out("segments on a full disk: no namespace of mounts can be made here")
    for name, check in cases:
        suite.test(f"{compiler} segments {name}", check, program)
