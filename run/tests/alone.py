"""Correct programs, recorded in each way, beside the same programs alone: their output, status and files."""

import glob
import os
import re
import shutil
import subprocess
import tempfile
from typing import Dict, List, NamedTuple, Sequence, Tuple

from support import CC, REPORT, RUN, TESTS, Failure, Later, Suite, compilers_there
from testing.programs import CXX, Started, call, kill_tree

SOURCES = f"{TESTS}/alone"
# No situation takes longer, in seconds, on however busy a machine. Nothing is measured by it.
LONGEST = 100
FLAGS = ["-g", "-w", "-O1", "-fPIC", "-pthread", f"-I{SOURCES}"]

# The program in the folder of a run.
PROGRAM = "alone"

# What differs, in which modes, and why. docs/RECORDER.md names each.
IN_A_RUN = ("recorded", "own", "preloaded")
EVERYWHERE = (*IN_A_RUN, "unrecorded")
KNOWN: Dict[str, Tuple[Sequence[str], str]] = {
    "proc_signals": (IN_A_RUN, "the recorder handles the signals that end a process, which SigCgt shows"),
    "proc_small_files": (IN_A_RUN, "the timer slack has the mark of a run"),
    "slack_of_timers": (IN_A_RUN, "the timer slack has the mark of a run"),
    "hints_of_maps": (EVERYWHERE, "the shadow is there"),
    "handler_stack_asked": (IN_A_RUN, "each thread has a handler stack of the recorder's"),
    "handler_stack_of_thread": (IN_A_RUN, "each thread has a handler stack of the recorder's"),
    "handler_stack_refused": (IN_A_RUN, "each thread has a handler stack of the recorder's"),
    "traced_child": (IN_A_RUN, "a tracer sees a signal that ends the process twice"),
    "pending_bus_error": (EVERYWHERE, "the recorder lets a SIGBUS through, which a store into a cut file causes"),
    "heap_at_break": (EVERYWHERE, "malloc takes its memory elsewhere"),
    "large_maps": (EVERYWHERE, "the shadow leaves no room for 64 TB"),
    "proc_environment": (["recorded", "preloaded"], "LD_PRELOAD is set"),
    "first_of_environment": (["recorded", "preloaded"], "LD_PRELOAD is set"),
    "execs_of_all_forms": (["preloaded"], "a plain program without LD_PRELOAD is not recorded, so the status is 98"),
    "odd_arguments": (["preloaded"], "a plain program without LD_PRELOAD is not recorded, so the status is 98"),
    "limit_of_numbers": (["recorded", "preloaded"], "the loader says that it has no descriptor for what is preloaded"),
    "orphans": (["recorded", "preloaded"], "asancol-run becomes the parent of orphans"),
    "limit_of_none": (IN_A_RUN, "a child cannot be recorded without a descriptor"),
    "limit_of_numbers_after_exec": (IN_A_RUN, "the recorder has descriptors within the limit"),
    "limit_then_exec": (IN_A_RUN, "the recorder has descriptors within the limit"),
    "number_of_descriptors": (IN_A_RUN, "FDSize counts the recorder's descriptors, and fdinfo has them"),
    "others_than_standard_by_errno": (IN_A_RUN, "readlink of /proc/self/fd/N sees them"),
    "select_of_all": (IN_A_RUN, "the system looks at descriptors below FDSize, which is larger"),
    "proc_threads": (["own"], "the process that waits to become the run is among the children of the first thread"),
    "other_folder_of_temporaries": (IN_A_RUN, "the run's folder is hidden, and the network another"),
}


class Outcome(NamedTuple):
    """What a run of a situation shows."""

    status: str
    out: str
    err: str
    files: str


class Mode(NamedTuple):
    """A way to run a situation."""

    name: str
    program: str
    before: List[str]  # the command before it
    settings: Dict[str, str]


def alone(built: str) -> Mode:
    return Mode("alone", f"{built}/plain", [], {})


def modes_of(built: str) -> List[Mode]:
    quiet = [RUN, "-q", "--"]
    return [
        Mode("recorded", f"{built}/recorded", quiet, {}),
        Mode("unrecorded", f"{built}/recorded", [], {}),
        Mode("own", f"{built}/recorded", [], {"ASANCOL_RUN": RUN}),
        Mode("preloaded", f"{built}/host", [RUN, "-q", "--preload", "--"], {}),
    ]


def build(folder: str, built: str, compiler: str) -> None:
    """Builds the situations as a plain program, as a recorded one, and as a recorded module of a plain program."""
    os.mkdir(built)
    cxx = {"gcc": "g++", "clang": "clang++"}[compiler]
    settings = {**os.environ, "ASANCOL_CC": compiler, "ASANCOL_CXX": cxx}
    sources = sorted(glob.glob(f"{SOURCES}/*.c")) + sorted(glob.glob(f"{SOURCES}/*.cpp"))
    objects: Dict[str, List[str]] = {"plain": [], "recorded": []}
    running = []
    for source in sources:
        for kind, c, cpp in (("plain", compiler, cxx), ("recorded", CC, CXX)):
            made = f"{built}/{os.path.basename(source)}.{kind}.o"
            argv = [cpp if source.endswith(".cpp") else c, *FLAGS, "-c", source, "-o", made]
            objects[kind].append(made)
            running.append(call(argv, env=settings, check=True))
    libraries = ["-pthread", "-ldl", "-lrt"]
    of_main = [it for it in objects["plain"] if it.endswith("/main.c.plain.o")]
    module = [it for it in objects["recorded"] if not it.endswith("/main.c.recorded.o")]
    for argv in (
        [cxx, *objects["plain"], "-o", f"{built}/plain", *libraries],
        [CXX, *objects["recorded"], "-o", f"{built}/recorded", *libraries],
        [CXX, "-shared", *module, "-o", f"{built}/libmodule.so", *libraries],
        [cxx, *of_main, f"{built}/libmodule.so", f"-Wl,-rpath,{built}", "-o", f"{built}/host", *libraries],
    ):
        call(argv, env=settings, check=True)


# The tool's part of a line.
OURS = re.compile(r"(SUMMARY: )?asancol: .*\n?")


def without_ours(text: str) -> str:
    """Returns standard error without the lines of the tool: each begins with its name, or is indented below such."""
    kept, is_below = [], False
    for line in text.splitlines(True):
        is_ours = bool(OURS.search(line)) or (is_below and line.startswith("  "))
        is_below = is_ours
        kept.append(OURS.sub("", line) if OURS.search(line) or not is_ours else "")
    return "".join(kept)


def files_of(folder: str) -> str:
    """Describes the files of a folder."""
    found = []
    for path in sorted(glob.glob(f"{folder}/**", recursive=True)):
        if path == f"{folder}/{PROGRAM}":
            continue
        about = os.lstat(path)
        text = b""
        if os.path.isfile(path) and not os.path.islink(path):
            with open(path, "rb") as file:
                text = file.read(4096)
        found.append(f"{path[len(folder):]} {about.st_mode:o} {about.st_nlink} {text!r}")
    return "\n".join(found)


def remove_ipc(folder: str) -> None:
    """Removes the queues and semaphores of a run, which waiting threads of its needed to its end."""
    path = f"{folder}/ipc"
    if os.path.exists(path):
        with open(path, encoding="utf-8") as file:
            call(["ipcrm", *file.read().split()], stderr=subprocess.DEVNULL)
        os.remove(path)


def run_once(suite: Suite, mode: Mode, name: str) -> Outcome:
    """Runs a situation in a new folder, under the same name in each mode."""
    folder = os.path.realpath(tempfile.mkdtemp(prefix="asancol-test-"))
    argv = [*mode.before, f"./{PROGRAM}", name]
    settings = mode.settings
    try:
        os.link(mode.program, f"{folder}/{PROGRAM}")
        environment = suite.environment(ASANCOL_REPORT=REPORT, ASANCOL_MAY_RETURN_NULL="1", **settings)
        with Started(argv, cwd=folder, env=environment, stdin=subprocess.DEVNULL, stdout=subprocess.PIPE,
                     stderr=subprocess.PIPE) as started:
            try:
                out, err = subprocess.Popen.communicate(started, timeout=LONGEST)
                status = str(started.returncode)
            except subprocess.TimeoutExpired:
                status = f"does not end: {kill_tree(started.pid)}"
                out, err = subprocess.Popen.communicate(started)
        remove_ipc(folder)
        text = without_ours(err.decode(errors="replace"))
        return Outcome(status, out.decode(errors="replace"), text, files_of(folder))
    finally:
        shutil.rmtree(folder, ignore_errors=True)


class Situation(NamedTuple):
    group: str
    name: str

    @property
    def has_threads(self) -> bool:
        """Whether threads write their lines in any order."""
        return self.group == "waits.c"


def normal(situation: Situation, outcome: Outcome) -> Outcome:
    if not situation.has_threads:
        return outcome
    return outcome._replace(out="".join(sorted(outcome.out.splitlines(True))))


def difference(plain: Outcome, other: Outcome) -> str:
    """Describes how an outcome differs from that of the plain program."""
    said = []
    for field in Outcome._fields:
        one, two = getattr(plain, field), getattr(other, field)
        if one != two:
            first, second = one.splitlines(), two.splitlines()
            missing = [it for it in first if it not in second][:4]
            more = [it for it in second if it not in first][:4]
            said.append(f"{field}: alone {missing or one[-200:]!r}, here {more or two[-200:]!r}")
    return "; ".join(said)


def compare(suite: Suite, situation: Situation, built: str, mode: Mode, plain: List[Outcome]) -> str:
    """Returns how a situation differs in a mode; an empty text if it does not. If the plain program varies, each of its
    outcomes is good."""
    found = ""
    for turn in range(3):
        outcome = normal(situation, run_once(suite, mode, situation.name))
        if outcome in plain:
            return ""
        found = found or difference(plain[0], outcome)
        for _ in range(2 if turn == 0 else 6):
            again = normal(situation, run_once(suite, alone(built), situation.name))
            if again not in plain:
                plain.append(again)
        if outcome in plain:
            return ""
        if len(plain) == 1:
            break
    return found


def check_group(suite: Suite, folder: str, built: str, group: str) -> None:
    wrong = []
    for situation in situations_of(built, group):
        plain = [normal(situation, run_once(suite, alone(built), situation.name))]
        for mode in modes_of(built):
            found = compare(suite, situation, built, mode, plain)
            modes, _ = KNOWN.get(situation.name, ((), ""))
            if found and mode.name not in modes:
                wrong.append(f"{situation.name}, {mode.name}: {found}")
    if wrong:
        raise Failure(f"{len(wrong)} differences\n" + "\n".join(wrong))


def situations_of(built: str, group: str) -> List[Situation]:
    listed = call([f"{built}/plain", "--list"], capture_output=True, check=True).stdout.decode().splitlines()
    found = [Situation(*it.split()) for it in listed]
    return sorted(it for it in found if it.group == group)


def tests(suite: Suite) -> None:
    groups = [os.path.basename(it) for it in glob.glob(f"{SOURCES}/*.c*")]
    for compiler in compilers_there():
        built = f"{suite.folder}/alone-{compiler}"
        later = Later(built, build, suite.folder, built, compiler)
        for group in sorted(groups):
            if group not in ("main.c", "alone.c"):
                suite.test(f"alone: {group} by {compiler}", check_group, later, group)
