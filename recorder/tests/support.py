"""What the recorder's tests share: runs, builds, traces, and the suite."""

import os
import re
import shutil
import tempfile
from typing import NamedTuple

import testing
from testing import Failure, Later, compilers_there, expect, fuzzers, leave_out, traces
from testing.lines import lines_of
from testing.programs import CC, CXX, TOP, environment, run  # noqa: F401
from testing.side import side_of

TESTS = os.path.dirname(os.path.abspath(__file__))
RECORDER = f"{TOP}/recorder"

REDZONE = 32


def limited(events):
    """Settings under which a recording ends after this many events, since there is one segment."""
    return {"ASANCOL_LIMIT": str(events), "ASANCOL_SEGMENTS": "0"}


def build(argv, folder, **settings):
    made = run(argv, folder, **settings)
    if made.returncode != 0:
        raise Failure(f"{' '.join(argv)}: {made.stderr.decode()}")


class Trace:
    """A trace as it lies in a file, or as it came over a socket."""

    def __init__(self, path=None, data=None):
        self.data = data if data is not None else open(path, "rb").read()
        reading = traces.read(self.data)
        self.events = [(event.code, event.at, event.size) for event in reading.events]
        self.is_closed = reading.is_closed

    def count(self, code):
        return sum(1 for event in self.events if event[0] == code)

    def block(self, address, before):
        """The start of the block whose span has the address, as it was at an event."""
        for code, start, size in reversed(self.events[: before - 1]):
            end = start + (size + 7) // 8 * 8 + REDZONE
            if code == traces.MALLOC and start != 0 and start - REDZONE <= address < end:
                return start
        return None


def noted(path):
    """The lines of the note that a link has left in a program, except the first, which says that there is one."""
    with open(path, "rb") as file:
        text = file.read().partition(b"asancol\0linked\n")[2].partition(b"\0")[0]
    return text.decode().splitlines()


def reports(asancol, path, options=(), most=1000):
    """The status, the first reports as the tests write them, and what comes after `end`."""
    checked = run([asancol, "check", *options, path], ".")
    said, _ = lines_of(checked.stdout)
    trace = Trace(path) if said else None
    texts = []
    for it in said[:most]:
        start = trace.block(it.address, it.event)
        words = [it.access, *([str(it.size)] if it.size is not None else [])]
        if start is not None:
            words.append(f"{it.address - start:+d}")
            if it.bad not in (None, it.address):
                words += ["bad", f"{it.bad - start:+d}"]
        texts.append(" ".join([*words, it.class_name]))
    last = checked.stdout.decode().splitlines()[-1:]
    return checked.returncode, texts, last[0].removeprefix("p0 end ") if last else ""


class Placed(NamedTuple):
    """A report with its line, which is "FILE:LINE", or empty without a fault."""

    number: int
    kind: str
    width: str
    wrong: str
    function: str
    line: str


def placed(asancol, path):
    """The reports of a trace with their lines, and the status of its check."""
    checked = run([asancol, "check", path], ".")
    said, _ = lines_of(checked.stdout)
    side = side_of(path)
    faults = [side.fault_at(it.event) for it in said]
    known = [fault.place[0] for fault in faults if fault]
    lines = dict(zip(known, side.lines(known)))
    places = [lines[fault.place[0]] if fault else ("", "") for fault in faults]
    found = [Placed(it.event, it.access, str(it.size or ""), it.class_name, *place) for it, place in zip(said, places)]
    return found, checked.returncode


ERROR = re.compile(r"ERROR: AddressSanitizer: (.*)")
PLACE = re.compile(r"is located (\d+) bytes (to the right of|to the left of|inside of) (\d+)-byte region")


def by_sanitizer(text):
    """What AddressSanitizer's first report says: the class, and the place in the block."""
    error = ERROR.search(text)
    if not error:
        return None
    said = error.group(1)
    if said.startswith("attempting double-free"):
        wrong = "double-free"
    elif said.startswith("attempting free"):
        wrong = "bad-free"
    else:
        wrong = said.split()[0]
    place = PLACE.search(text)
    if not place:
        return wrong, None
    distance, side, size = int(place.group(1)), place.group(2), int(place.group(3))
    offset = {"to the right of": size + distance, "to the left of": -distance, "inside of": distance}
    return wrong, offset[side]


def same_as_sanitizer(text, said):
    """Whether a report, as the tests write it, is what AddressSanitizer said. It names the access's
    address or the first bad byte."""
    words = text.split()
    places = [int(word) for word in words if word[0] in "+-"]
    wrong, offset = said
    if words[-1] != wrong:
        return False
    return offset is None or not places or offset in places


class Suite(testing.Suite):
    """The tests of the recorder, for each compiler; the program that checks recordings; and a folder for the
    programs that several tests run."""

    def __init__(self, asancol, words):
        super().__init__(words)
        self.asancol = asancol
        self.folder = tempfile.mkdtemp(prefix="asancol-tests-")
        self.programs = {}
        self.compilers = compilers()
        for compiler in self.compilers:
            compiler.has_sanitizer = has_sanitizer(compiler, self.folder)
            if not compiler.has_sanitizer:
                leave_out(f"the AddressSanitizer of {compiler} is not there")
        self.discover(TESTS)
        if os.environ.get("SANITIZE"):
            fuzzers.add_tests(self, 5, ["recorder", "asancol-cc"], "fuzzers: ")

    def collect(self, module):
        """Takes the tests of each compiler, and `tests_of_all`, which need none."""
        for compiler in self.compilers:
            module.tests(self, compiler)
        if hasattr(module, "tests_of_all"):
            module.tests_of_all(self)

    def built(self, make, sources, name, *flags, **settings):
        """A program that is built when the first test needs it, and once."""
        program = f"{self.folder}/{name}"
        later = Later(program, make, self.folder, sources, program, *flags, **settings)
        return self.programs.setdefault(program, later)

    def clean_up(self):
        shutil.rmtree(self.folder, ignore_errors=True)


class Compiler:
    """A compiler by its C and its C++ command."""

    def __init__(self, name, cxx):
        self.name = name
        self.cxx = cxx
        self.has_sanitizer = False

    def __str__(self):
        return self.name

    def c(self, folder, sources, program, *flags, native=False, **settings):
        argv = [self.name] if native else [CC]
        build([*argv, "-g", *flags, *sources, "-o", program], folder, ASANCOL_CC=self.name, **settings)

    def cpp(self, folder, sources, program, *flags, native=False, **settings):
        argv = [self.cxx] if native else [CXX]
        build([*argv, "-g", *flags, *sources, "-o", program], folder, ASANCOL_CXX=self.cxx, **settings)


def has_sanitizer(compiler, folder):
    write(folder, empty_c="int main(void) { return 0; }\n")
    made = run([compiler.name, "-fsanitize=address", "empty.c", "-o", "empty"], folder)
    return made.returncode == 0 and run(["./empty"], folder).returncode == 0


def compilers():
    """Those that are there, each with its C++ command if that is."""
    found = []
    for name, cxx in (("gcc", "g++"), ("clang", "clang++")):
        if name not in compilers_there():
            leave_out(f"{name} is not there")
            continue
        found.append(Compiler(name, cxx if shutil.which(cxx) else None))
        if not found[-1].cxx:
            leave_out(f"{cxx} is not there")
    return found


# The versions that Debian has, from release to release.
VERSIONS = {"gcc": (11, 12), "clang": (13, 14, 15, 16, 19, 22)}


def versions_of(name, with_own=False):
    """The other versions of a compiler that are there, and any newer or older than Debian's; or all versions."""
    found, own = [], os.path.realpath(shutil.which(name) or name)
    numbers = {int(it[1]) for it in map(re.compile(rf"{name}-(\d+)$").match, programs_there()) if it}
    for number in sorted(numbers | set(VERSIONS[name])):
        path, cxx = shutil.which(f"{name}-{number}"), f"{'g++' if name == 'gcc' else 'clang++'}-{number}"
        if path is None:
            leave_out(f"{name}-{number} is not there")
        elif with_own or os.path.realpath(path) != own:
            found.append(Compiler(f"{name}-{number}", cxx if shutil.which(cxx) else None))
    return found


def programs_there():
    return [name for place in os.environ["PATH"].split(":") if os.path.isdir(place) for name in os.listdir(place)]


def has_plugin(front):
    """Whether a wrapper has a plugin for the GCC that it runs."""
    name = {"ASANCOL_CC": "gcc"} if front == CC else {}
    return b"-fplugin=" in run([front, "-###", "-c", "any.c"], ".", **name).stderr


def has_plugin_for(front, compiler):
    return b"-fplugin=" in run([front, "-###", "-c", "any.c"], ".", ASANCOL_CC=compiler.name).stderr


# The report of a program that stores a byte past a block of 8.
MARK = "store 1 +8 heap-buffer-overflow"

PAST_THE_END = """
#include <stdlib.h>
int helper(char *p);
int main(void) { char *p = malloc(8); int r = helper(p); free(p); return r; }
"""
HELPER = "int helper(char *p) { ((volatile char *)p)[8] = VALUE; return 0; }\n"


def write(folder, **files):
    for name, text in files.items():
        with open(f"{folder}/{name.replace('_', '.')}", "w") as file:
            file.write(text)


def one_mark(suite, folder, program="./program"):
    """The program shows its mark, and nothing else."""
    ran = run([program], folder, ASANCOL_TRACE="mark.trace")
    expect((ran.returncode, ran.stderr), (0, b""), "the program")
    expect(reports(suite.asancol, f"{folder}/mark.trace")[1], [MARK], "reports")
    os.unlink(f"{folder}/mark.trace")
    ran = run([program], folder)
    expect((ran.returncode, ran.stderr), (0, b""), "the program alone")
