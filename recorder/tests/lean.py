"""Tests of lean recording: good events leave no record, and faults are those of a full recording."""

import glob
from typing import Dict, List, Sequence, Tuple

from asancol_report.by_recorder import FORMS
import hub
from drawn import expect_same, recorded
from inline import make
from segments import kinds_of, record, segments_of
from support import RECORDER, TESTS, TOP, Compiler, Suite, Trace, expect, run, side_of, traces
from testing.programs import call
from testing.side import EXIT, SEGMENT

ONE = 1 << 24
# Programs of segments.c, whose faults are the same in each run.
PROGRAMS = ("blocks 3000 1700", "early 3000 0", "variables 3000 10", "poisons 3000 5", "long_ago 3000 0",
            "threads 3000 1234", "wrong_threads 500 0", "handlers 20000 12345", "is_killed 300 0")


def check_nothing(suite: Suite, folder: str, program: str) -> None:
    """Good mallocs and frees are not in the trace."""
    for words in ("blocks 3000 -1", "many_live 3000 0", "live_and_held 600 190"):
        segment, = record(suite, folder, [program, *words.split()], 16, ASANCOL_FULL="0")
        trace = Trace(segment.path)
        expect([trace.count(code) for code in (traces.MALLOC, traces.FREE)], [0, 0], words)


def check_same(suite: Suite, folder: str, program: str) -> None:
    """In segments of any length there are as many faults of each class as in one segment of all events."""
    for argv in (it.split() for it in PROGRAMS if not it.startswith("is_killed")):
        wanted = kinds_of(record(suite, folder, [program, *argv], ONE))
        for limit in (ONE, 3000, 100, 16):
            found = kinds_of(record(suite, folder, [program, *argv], limit, ASANCOL_FULL="0"))
            expect(found, wanted, f"{argv} in segments of at most {limit} events")


def check_children(suite: Suite, folder: str, program: str) -> None:
    """Forked children know what their parent has, and a failed exec changes nothing."""
    kinds = []
    ran = run([program, "children", "500", "400"], folder, ASANCOL_TRACE="%p.trace", ASANCOL_FULL="0")
    expect((ran.returncode, ran.stderr), (0, b""), "the run")
    for path in sorted({it.rpartition("/")[2] for it in traces_in(folder)}):
        kinds.append(kinds_of(segments_of(suite, f"{folder}/{path}")))
    past, after = "store heap-buffer-overflow", "store heap-use-after-free"
    expect(sorted(kinds, key=str), sorted([{past: 1}, {past: 2, after: 1}, {past: 2, after: 1}], key=str), "faults")


def traces_in(folder: str) -> Sequence[str]:
    listed = run(["sh", "-c", "ls *.trace | grep -v segment"], folder).stdout.decode()
    return listed.split()


def check_handlers(suite: Suite, folder: str, program: str) -> None:
    """Each fault of a handler is found, also in the middle of the allocator."""
    ran = run([program, "handlers", "200000"], folder, ASANCOL_TRACE="t.trace", ASANCOL_FULL="0")
    kinds = kinds_of(segments_of(suite, f"{folder}/t.trace"))
    expect(kinds, {"store heap-buffer-overflow": int(ran.stdout)}, "faults")


def check_threaded(suite: Suite, folder: str, program: str) -> None:
    """The same if there are several threads. While all of them share something, as when a unit is taken, it is known
    that an access is bad, and no more: on a quiet machine of one in twenty, and of one in three on a busy one."""
    ran = run([program, "threaded", "200000"], folder, ASANCOL_TRACE="t.trace", ASANCOL_FULL="0")
    kinds = kinds_of(segments_of(suite, f"{folder}/t.trace"))
    ticks, exact = int(ran.stdout), kinds.get("store heap-buffer-overflow", 0)
    expect((sum(kinds.values()), exact > ticks // 4), (ticks, True), f"{kinds}")


def check_frees(suite: Suite, folder: str, program: str) -> None:
    """Each free of a handler is seen, however many it makes in the middle of the allocator."""
    for full in ("0", "1"):
        kinds = kinds_of(record(suite, folder, [program, "frees", "20"], ONE, ASANCOL_FULL=full))
        expect(kinds, {"free at": 2000}, f"faults with ASANCOL_FULL={full}")


def check_jumps(suite: Suite, folder: str, program: str) -> None:
    """After a handler has jumped out of the allocator all goes on, and what comes after an exit from there is seen.
    Little memory is taken anew: nobody can go on from the middle of that."""
    wanted = {"jumps 20": {"store heap-buffer-overflow": 20, "free double-free": 20},
              "exits 10": {"free double-free": 1}}
    for words in wanted:
        ran = run(["sh", "-c", f"rm -f t.*; {program} {words}"], folder, ASANCOL_TRACE="t.trace", ASANCOL_FULL="0",
                  ASANCOL_QUARANTINE="1000")
        expect((ran.returncode, ran.stderr), (0, b""), words)
        found = kinds_under(suite, folder)
        if words == "exits 10":  # the block may have left the quarantine
            found = {kind.replace("bad-free", "double-free"): number for kind, number in found.items()}
        expect(found, wanted[words], words)


def check_stacks(suite: Suite, folder: str, program: str) -> None:
    """Redzones of frames in a block, and that of the block."""
    for limit in (ONE, 100):
        kinds = kinds_of(record(suite, folder, [program, "stacks", "30"], limit, ASANCOL_FULL="0"))
        expect(kinds, {"store stack-buffer-overflow": 30, "store heap-buffer-overflow": 60}, f"with {limit}")


def check_fibers(suite: Suite, folder: str, program: str) -> None:
    """Drawn mistakes of coroutines whose stacks are blocks, in their frames, beside their stacks and in others that
    were freed, are the faults of a full recording."""
    argv = [program, "drawn_fibers", "600"]
    wanted = kinds_of(record(suite, folder, argv, ONE))
    expect((len(wanted), min(wanted.values()) > 40), (5, True), f"faults of a full recording: {wanted}")
    for limit in (ONE, 3000, 50):
        expect(kinds_of(record(suite, folder, argv, limit, ASANCOL_FULL="0")), wanted, f"with {limit}")


def kinds_of_turns(suite: Suite, folder: str, program: str, full: str, quarantine: str) -> Dict[str, int]:
    settings = {"ASANCOL_TRACE": "t.trace", "ASANCOL_QUARANTINE": quarantine, "ASANCOL_FULL": full}
    run(["sh", "-c", f"rm -f t.*; {program} turns 500"], folder, **settings)
    return kinds_under(suite, folder)


def check_turns(suite: Suite, folder: str, program: str) -> None:
    """Each use of a freed block is one, as if all was held, also if nothing may be: its memory was not used again."""
    wanted = kinds_of_turns(suite, folder, program, "1", "268435456")
    for quarantine in ("0", "72", "200", "2000", "268435456"):
        kinds = kinds_of_turns(suite, folder, program, "0", quarantine)
        expect(kinds, wanted, f"with a quarantine of {quarantine}")


def check_large(suite: Suite, folder: str, program: str) -> None:
    """The same in a block of more bytes than a checker holds."""
    record(suite, folder, [program, "large", "1"], ONE, ASANCOL_FULL="0")
    kinds = kinds_under(suite, folder)
    expect(kinds, {"load heap-use-after-free": 6, "load heap-buffer-overflow": 2, "free double-free": 2}, "faults")


def check_used_again(suite: Suite, folder: str, program: str) -> None:
    """That freed memory was reused is noted once there is too much of it: in all segments of the process that
    follow, and in those of its child."""
    blocks = "200000"
    for words, quarantine, has_come in (("scattered", "1000000", True), ("scattered", "", False),
                                        ("wrong_after", "1000000", True), ("wrong_after", "", False)):
        settings = {"ASANCOL_TRACE": "%p.trace", "ASANCOL_WHERE": "1", "ASANCOL_FULL": "0", "ASANCOL_LIMIT": "16"}
        ran = run(["sh", "-c", f"rm -f *.trace*; {program} {words} {blocks}"], folder, ASANCOL_QUARANTINE=quarantine,
                  **settings)
        expect((ran.returncode, ran.stderr), (0, b""), words)
        paths = run(["sh", "-c", "ls *.trace"], folder).stdout.decode().split()
        expect(len(paths) > 2 if words == "wrong_after" else len(paths) == 1, True, f"traces: {paths}")
        noted = {side_of(f"{folder}/{it}").used_again() for it in paths}
        expect(len(noted), 1, f"{words} {quarantine}: numbers of bytes: {noted}")
        expect(1 << 20 < noted.pop() < 40 * int(blocks) * 3, has_come, f"{words} {quarantine}: it has come again")
    ran = run([program, "scattered", blocks], folder, ASANCOL_QUARANTINE="1000000", ASANCOL_TRACE="t.trace",
              ASANCOL_WHERE="1", ASANCOL_FULL="1")
    expect(side_of(f"{folder}/t.trace").used_again(), 0, "in a full recording")


def check_limited(suite: Suite, folder: str, program: str) -> None:
    """If the system has no more memory, that of freed blocks is taken, also of smaller ones, and that is noted."""
    ran = run([program, "limited", "20"], folder, ASANCOL_TRACE="t.trace", ASANCOL_WHERE="1", ASANCOL_FULL="0")
    expect((ran.returncode, ran.stderr, int(ran.stdout) > 100), (0, b"", True), f"{ran.stdout!r} blocks")
    expect(kinds_of(segments_of(suite, f"{folder}/t.trace")), {}, "faults")
    expect(side_of(f"{folder}/t.trace").used_again() > 0, True, "that freed memory came again")


def check_joined(suite: Suite, folder: str, program: str) -> None:
    """The same for blocks of any size, of what lies side by side: also of what has no notes any more."""
    ran = run([program, "joined", "400"], folder, ASANCOL_TRACE="t.trace", ASANCOL_WHERE="1", ASANCOL_FULL="0")
    expect((ran.returncode, ran.stderr), (0, b""), "the run")
    expect([int(it) > 150 for it in ran.stdout.split()], [True] * 7, f"{ran.stdout!r} megabytes")
    expect(kinds_of(segments_of(suite, f"{folder}/t.trace")), {}, "faults")


def shadows_found(suite: Suite, folder: str, program: str, words: str) -> Tuple[Dict[int, int], List[str]]:
    """How often each shadow byte was found in the place of another one, and the words of each finding. In a segment
    all of a place are one."""
    record(suite, folder, [program, *words.split()], 16, ASANCOL_FULL="0", ASANCOL_WHERE="1")
    found: Dict[int, int] = {}
    texts = []
    for path in sorted(glob.glob(f"{folder}/t*.trace"), key=lambda it: ("segment" in it, it)):
        for it in side_of(path).findings():
            expect(FORMS[it.kind].class_of(it), "bad-shadow", "class")
            found[it.other % 256] = found.get(it.other % 256, 0) + it.count
            texts.append(FORMS[it.kind].words(it).replace(f"0x{it.start:x}", f"byte {it.start - it.block}"))
    return found, texts


def check_overwritten(suite: Suite, folder: str, program: str) -> None:
    """At a bad access or free of a block, another shadow byte than the block's is found in its redzones, its first and
    last bytes and those that are met; at a free the bytes that are met are the first ones."""
    found, texts = shadows_found(suite, folder, program, "overwritten 3")
    expect(found, {0xfd: 21, 0x03: 21, 0xf1: 18}, "shadow bytes")
    expect(texts[0], "the shadow byte of byte -32 is fd, and should be fa", "the first one")
    for kind in ("fd, and should be 04", "fd, and should be 00", "03, and should be fd", "f1, and should be fd"):
        expect([it for it in texts if it.endswith(kind)] != [], True, f"{kind}: {texts}")


def check_poisoned(suite: Suite, folder: str, program: str) -> None:
    """None is found where the process has poisoned or unpoisoned something itself, and in stacks that are blocks."""
    for words in ("poisoned 20", "stacks 20", "drawn_fibers 200", "turns 50"):
        expect(shadows_found(suite, folder, program, words), ({}, []), words)


def check_said(_suite: Suite, folder: str, compiler: Compiler) -> None:
    """The statements before a bad access give the collector its shadow byte and its class."""
    flags = ["-std=gnu11", "-O2", "-iquote", RECORDER, "-iquote", TOP]
    call([compiler.name, *flags, f"{TESTS}/said.c", f"{RECORDER}/stream/saying.c", "-o", f"{folder}/said"], check=True)
    ran = run([f"{folder}/said"], folder)
    expect((ran.returncode, ran.stdout[:5]), (0, b"0 of "), ran.stdout.decode())


def check_holes(_suite: Suite, folder: str, compiler: Compiler) -> None:
    """A group whose thread sleeps in the middle of it hides no other one."""
    flags = ["-std=gnu11", "-O2", "-iquote", RECORDER, "-iquote", TOP]
    call([compiler.name, *flags, f"{TESTS}/holes.c", f"{RECORDER}/stream/holes.c", "-o", f"{folder}/holes"], check=True)
    ran = run([f"{folder}/holes"], folder)
    expect((ran.returncode, ran.stdout), (0, b""), "what is read")


def check_hub(suite: Suite, folder: str, program: str) -> None:
    """A block in the way begins another connection of the process. Each fault is there once."""
    peers, said = hub.run_under(folder, [program, "turns", "500"], ASANCOL_QUARANTINE="200", ASANCOL_LIMIT="100")
    sides = [it.side() for it in peers]
    expect((said, len(peers) > 1), (b"", True), f"{len(peers)} connections")
    expect([it.segment for it in sides], list(range(1, len(peers) + 1)), "numbers of segments")
    expect([it.ending for it in sides], [SEGMENT] * (len(sides) - 1) + [EXIT], "endings")
    expect([it.trace().is_closed for it in peers], [True] * len(peers), "closes")
    expect(sum(len(hub.faults_of(it)) for it in peers), 1500, "faults")


def kinds_under(suite: Suite, folder: str) -> Dict[str, int]:
    """How many faults there are of each kind: a checker of a lean recording is not told how much was held."""
    found: Dict[str, int] = {}
    for name in run(["sh", "-c", "ls t*.trace"], folder).stdout.decode().split():
        text = run([suite.asancol, "check", name], folder).stdout.decode()
        lines = [it.split() for it in text.splitlines()]
        expect([it[2] for it in lines if it[1] == "end"], ["closed"], name)
        for words in (it for it in lines if it[1] != "end" and it[0] != "total"):
            kind = f"{words[2]} {words[-1] if words[2] == 'free' else words[-3]}"
            found[kind] = found.get(kind, 0) + 1
    return found


def check_every(suite: Suite, folder: str, compiler: Compiler) -> None:
    """From the first access on that is recorded as each is, mallocs are recorded, too: there is a snapshot of what
    stood."""
    make(compiler, folder, "drawn.c", f"{folder}/every", "-O1", ASANCOL_ALL="1")
    wanted = recorded(suite, folder, "every", 1, 1)
    for settings in ({"ASANCOL_WHERE": "1"}, {"ASANCOL_LIMIT": "60000"}, {"ASANCOL_HALT": "0"}):
        found = recorded(suite, folder, "every", 1, 1, ASANCOL_FULL="0", **settings)
        expect_same([it.bare() for it in found], [it.bare() for it in wanted], f"faults with {settings}")
    for full in ("0", "1"):
        run(["./every", "1", "1000", "1"], folder, ASANCOL_TRACE=f"{full}.trace", ASANCOL_FULL=full)
    mallocs = [Trace(f"{folder}/{full}.trace").count(traces.MALLOC) for full in ("0", "1")]
    expect((mallocs[0] > 10, mallocs[0]), (True, mallocs[1]), "mallocs")


def check_vforks(suite: Suite, folder: str, program: str) -> None:
    """What a child of vfork does is in its parent's stream, also to a hub, where it can't begin a segment."""
    run([program, "vforks", "300"], folder, ASANCOL_TRACE="t.trace", ASANCOL_FULL="0")
    expect(kinds_of(segments_of(suite, f"{folder}/t.trace")), {"store heap-use-after-free": 600}, "to a file")
    peers, said = hub.run_under(folder, [program, "vforks", "300"])
    expect((said, all(it.trace().is_closed for it in peers)), (b"", True), "to a hub")


def tests(suite: Suite, compiler: Compiler) -> None:
    flags = ("-O1", "-w", "-pthread")
    segments = suite.built(compiler.c, [f"{TESTS}/segments.c"], f"lean-segments-{compiler}", *flags)
    lean = suite.built(compiler.c, [f"{TESTS}/lean.c"], f"lean-{compiler}", *flags)
    for name, check, program in (("nothing", check_nothing, segments), ("same", check_same, segments),
                                 ("children", check_children, segments), ("handlers", check_handlers, lean),
                                 ("threaded", check_threaded, lean),
                                 ("frees", check_frees, lean),
                                 ("jumps", check_jumps, lean),
                                 ("turns", check_turns, lean), ("vforks", check_vforks, lean),
                                 ("large", check_large, lean),
                                 ("used again", check_used_again, lean), ("limited", check_limited, lean),
                                 ("joined", check_joined, lean), ("overwritten", check_overwritten, lean),
                                 ("poisoned", check_poisoned, lean),
                                 ("stacks", check_stacks, lean), ("fibers", check_fibers, lean),
                                 ("hub", check_hub, lean)):
        suite.test(f"{compiler} lean {name}", check, program)
    suite.test(f"{compiler} lean every access", check_every, compiler)
    suite.test(f"{compiler} lean said", check_said, compiler)
    suite.test(f"{compiler} lean holes", check_holes, compiler)
