"""Many processes in one run: what each costs does not grow with their number, and one that goes wrong, or whose checker
does, costs none of the others its verdict."""

import re
import shutil

from sharing import checker
from support import RUN, SANITIZE, TESTS, TOP, Later, Suite, expect, expect_ran, leave_out
from testing.programs import call

# This many come in a run, and in a larger one.
FEW, MANY = 500, 2000
# So much more one of the larger run may take. If each looked at all that came before it, by four instructions for one,
# it would take more.
GROWTH = 1.08
# This many are beside the one that goes wrong.
BESIDE = 150

GARBAGE = ("import os, socket; s = socket.socket(socket.AF_UNIX); s.connect(os.environ['ASANCOL_HUB']); "
           "s.send(b'junk' * 9)")


def build(program: str) -> None:
    call(["cc", "-O1", "-std=c11", "-iquote", TOP, f"{TESTS}/crowd.c", "-o", program], check=True)


def instructions(suite: Suite, folder: str, program: str, count: int, *words: str) -> int:
    """How many instructions asancol-run takes for a run of this many processes: its own, without the system's."""
    path = f"{folder}/instructions"
    argv = ["valgrind", "--tool=callgrind", f"--callgrind-out-file={path}", RUN, "-q", "--exitcode=7", "--", program,
            str(count), *words]
    ran = suite.run_argv(argv)
    expect(ran.status, 98 if "silent" in words else 0, ran.err[-800:])
    with open(path, encoding="utf-8") as text:
        found = re.search(r"^(?:summary|totals): (\d+)", text.read(), re.M)
    return int(found[1]) if found else 0


def check_growth(suite: Suite, folder: str, program: str, *words: str) -> None:
    """An event costs what happens, and not how many processes there were before."""
    none, few, many = (instructions(suite, folder, program, it, *words) for it in (1, FEW, MANY))
    one_of_few, one_of_many = (few - none) / FEW, (many - none) / MANY
    said = f"{one_of_few:,.0f} instructions for one of {FEW}, {one_of_many:,.0f} for one of {MANY}"
    expect(one_of_many < GROWTH * one_of_few, True, said)


def held_of_one(suite: Suite, program: str) -> float:
    sizes = []
    for count in (FEW, MANY):
        line = (f"{program} {count}; while [ $(ls /proc/$PPID/fd | wc -l) -gt 30 ]; do sleep 0.2; done; "
                "grep VmRSS /proc/$PPID/status")
        sizes.append(int(suite.run("-q", "--", "sh", "-c", line).out.split()[1]) * 1024)
    return (sizes[1] - sizes[0]) / (MANY - FEW)


def check_held(suite: Suite, folder: str, program: str) -> None:
    """The memory for a process that has ended. The allocator takes memory in steps: the least of several counts."""
    of_one = min(held_of_one(suite, program) for _ in range(4))
    expect(of_one < 550, True, f"{of_one:,.0f} bytes of one")


def check_together(suite: Suite, folder: str, program: str) -> None:
    """All are there at once, each with a checker of its own since none ends soon."""
    ran = suite.run("--", program, "300", "together")
    expect_ran(ran, 0, "no reports; 300 processes, 0 events; all complete")


def check_beside(suite: Suite, folder: str, program: str, other: str, said: str) -> None:
    """The others are complete, whatever this one does beside them."""
    line = f"{program} {BESIDE} & {other.format(program=suite.program, crowd=program)} wait %1"
    ran = suite.run("--wait", "2", "--", "sh", "-c", line)
    # One process was seen besides, and it alone is incomplete.
    expect_ran(ran, 98, f"; {BESIDE + 1} processes, ", "; 1 INCOMPLETE", said)


# Of a checker: it kills itself if it is of several, or if its stream has an event.
DIES = """if [ "$1" = check ]; then kill -9 $$; fi
if [ $(head -c 10 | tee $$.trace | wc -c) -lt 10 ]; then exec ASANCOL < $$.trace; fi
kill -9 $$"""


def check_checkers(suite: Suite, folder: str, program: str) -> None:
    """Each checker of several is killed, and the one of a process with an event, which alone is incomplete."""
    failing = checker(suite, folder, DIES.replace("ASANCOL", suite.asancol))
    line = f"{program} {BESIDE} & {suite.program} past; wait"
    ran = suite.run("--live=end", "--", "sh", "-c", line, cwd=folder, ASANCOL=failing)
    expect_ran(ran, 98, f"; {BESIDE + 1} processes, ", "; 1 INCOMPLETE", "its checker was ended by SIGKILL")


def check_full_disk(suite: Suite, folder: str, program: str) -> None:
    """Where no trace can be kept, processes are checked all the same."""
    line = (f"mount -t tmpfs -o size=64k none {folder} && mkdir {folder}/kept && cat /dev/zero > {folder}/full; "
            f"TMPDIR={folder} {RUN} --unchecked=no --keep {folder}/kept sh -c '{program} 40; {suite.program} sound'")
    ran = suite.run_argv(["unshare", "-rm", "sh", "-c", line])
    expect_ran(ran, 0, "no reports; 41 processes, 2 events; all complete", "not all of the trace could be kept")


BESIDES = {
    "garbage": (f'python3 -c "{GARBAGE}";', "its last events were not seen"),
    "a silent one": ("{crowd} 1 silent;", "it was not recorded, or not by this run"),
    "one that never ends": ("{program} sleeps 20 > /dev/null 2>&1 &", "was still running at the end of asancol-run"),
}


def tests(suite: Suite) -> None:
    program = f"{suite.folder}/crowd"
    crowd = Later(program, build, program)
    suite.test("crowd: together", check_together, crowd)
    for name, (line, said) in BESIDES.items():
        suite.test(f"crowd: beside {name}", check_beside, crowd, line, said)
    suite.test("crowd: killed checkers", check_checkers, crowd)
    if suite.run_argv(["unshare", "-rm", "true"]).status == 0:
        suite.test("crowd: full disk", check_full_disk, crowd)
    if SANITIZE:
        leave_out("crowd: a run that sanitizers watch is not counted")
        return
    suite.test("crowd: what is held", check_held, crowd)
    if shutil.which("valgrind"):
        suite.test("crowd: growth", check_growth, crowd)
        suite.test("crowd: growth of silent ones", check_growth, crowd, "silent")
    else:
        leave_out("crowd: growth: valgrind is not there")
