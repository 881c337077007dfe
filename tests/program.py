"""A built program that is run with words, the output for some traces, and the suites of such runs."""

import itertools
import os
import resource
import shutil
import socket
import subprocess
import sys
import tempfile
import time
from typing import List

import refused_calls
from testing import Failure, LeftOut, Suite, suite
from testing.programs import PATIENCE
from testing.traces import closed, free, malloc, store

NOBODY = 65534

# A name in each program that `rt try` has built, with checks in the place of the proof.
OF_CHECKS = b"__asan_init"

# The message where a word is not a command, and where one is a short form that is not there.
HINT = "\nTo check a trace in a file: asancol check FILE\n"
NO_SHORT_FORM = "\nThe options --verbose and --version have no short form\n"
HINTS = {"": HINT, "-v": NO_SHORT_FORM, "-V": NO_SHORT_FORM}

# A malloc of 5 bytes and a store of 4 that ends one byte past them.
PAST_THE_END = closed(malloc(0x1000, 5), store(4, 0x1004))

# A store that ends past a block of 8 bytes, in a granule that is not looked at.
SOUND = closed(malloc(0x1000, 8), store(4, 0x1006))

# The first 30 bytes of PAST_THE_END: half a store.
CUT = PAST_THE_END[:30]

# 100,000 mallocs of 8 bytes that are 2^30 bytes apart. Without a bound they make a checker hold
# 2.1 GB.
FAR_APART = closed(*(malloc(place << 30, 8) for place in range(1, 100_001)))
TWICE_FREED = closed(malloc(0x1000, 8), free(0x1000), free(0x1000))


def past_the_end(process=0):
    """The output for PAST_THE_END."""
    return (
        f"p{process} #2 store 4 at 000000001004 bad 000000001005"
        " heap-buffer-overflow shadow 05\n"
        f"p{process} end closed events 2 offset 36 reports 1\n"
    )


def sound(process=0):
    """The output for SOUND."""
    return f"p{process} end closed events 2 offset 36 reports 0\n"


def cut(process=0):
    """The output for CUT."""
    return f"p{process} end truncated events 1 offset 25 reports 0\n"


def prepared(before=None):
    """The preparation just before a program starts: root is given up for good, and `before` called.

    Where the real user is not the one that a program acts for, the C library opens something in
    the place of each standard stream that is closed, and no other run has that."""

    def prepare():
        os.setresgid(*[os.getegid()] * 3)
        os.setresuid(*[os.geteuid()] * 3)
        if before:
            before()

    return prepare


class Program:
    """A program that was built, and the folder that it runs in."""

    def __init__(self, path):
        self.path = path

    def run(self, argv, given=b"", before=None, **streams):
        """Runs it. `given` is what standard input holds, and `before` is called just before."""
        streams = {"stdout": subprocess.PIPE, "stderr": subprocess.PIPE, **streams}
        if "stdin" not in streams:
            streams["input"] = given
        ran = subprocess.run(
            [self.path, *argv],
            preexec_fn=prepared(before),
            timeout=PATIENCE,
            check=False,
            **streams,
        )
        return ran.returncode, ran.stdout, ran.stderr

    def leave_out_with_checks(self, why):
        """Leaves the test out if the program has checks in the place of its proof."""
        with open(self.path, "rb") as file:
            if OF_CHECKS in file.read():
                raise LeftOut(f"{why}, with checks in the place of a proof")

    def expect(self, argv, status, output="", faults="", **how):
        """Expects this status and exactly these texts."""
        same(argv, self.run(argv, **how), (status, output.encode(), faults.encode()))

    def expect_refused(self, argv, *parts):
        """Expects that the words are refused, by a text on standard error with these parts, and
        with a hint only where it is one of them."""
        status, output, faults = self.run(argv)
        same(argv, (status, output), (2, b""))
        for hint in HINTS.values():
            holds(argv, faults.endswith(hint.encode()) == (hint in parts), faults)
        holds(argv, faults.count(b"error: ") == 1, faults)
        holds(argv, faults.startswith(b"error: ") and faults.endswith(b"\n"), faults)
        for part in parts:
            holds(argv, part.encode() in faults, faults)

    def expect_unwritten(self, argv, **how):
        """Expects status 4, and nothing on standard error, where the output takes nothing."""
        with open("/dev/full", "wb") as full:
            same(argv, self.run(argv, stdout=full, **how), (4, None, b""))
        same(argv, self.run(argv, before=lambda: os.close(1), **how), (4, b"", b""))


def same(what, got, wanted):
    holds(what, got == wanted, f"got    {got}\nwanted {wanted}")


def holds(what, is_so, text):
    if not is_so:
        raise Failure(f"{what}\n{text}")


def same_lines(what, got, wanted):
    """Expects this text, and shows the first line that differs."""
    if got == wanted.encode():
        return
    lines = itertools.zip_longest(got.decode().splitlines(), wanted.splitlines())
    same(what, *next((pair for pair in lines if pair[0] != pair[1]), ("", "")))


def put(name, data):
    with open(name, "wb") as file:
        file.write(data)
    return name


def closing(*streams):
    """What closes these standard streams before the program starts."""
    return lambda: [os.close(stream) for stream in streams]


def opened_by(running, count):
    """The descriptors of a program, once it has this many, with the paths that they stand for."""
    folder = f"/proc/{running.pid}/fd"
    for _ in range(PATIENCE * 100):
        if len(os.listdir(folder)) >= count:
            break
        time.sleep(0.01)
    return {int(it): os.readlink(f"{folder}/{it}") for it in os.listdir(folder)}


def connected(what):
    """Connects a peer to the socket in this folder, once it listens."""
    for _ in range(PATIENCE * 100):
        peer = socket.socket(socket.AF_UNIX)
        try:
            peer.connect("socket")
            return peer
        except OSError:
            peer.close()
            time.sleep(0.01)
    raise Failure(f"{what}\nno socket listens")


class Served:
    """The program, serving a socket in this folder."""

    # Those that were started and not seen to end.
    running: List["Served"] = []

    def __init__(self, program, *argv, before=None):
        self.argv = ["serve", *argv, "socket"]
        self.program = subprocess.Popen(
            [program.path, *self.argv],
            preexec_fn=prepared(before),
            stdin=subprocess.DEVNULL,
            stdout=subprocess.PIPE,
            stderr=subprocess.PIPE,
        )
        Served.running.append(self.program)

    def connect(self):
        """Connects a peer, once the socket listens."""
        return connected(self.argv)

    def send(self, *traces):
        """Connects a peer for each trace, in order, which sends it and closes."""
        peers = [self.connect() for _ in traces]
        for peer, data in zip(peers, traces):
            peer.sendall(data)
            peer.close()
        return self

    def answer(self):
        """Its status and what it wrote, once it has ended."""
        said = self.program.communicate(timeout=PATIENCE)
        Served.running.remove(self.program)
        os.remove("socket")
        return self.program.returncode, *said

    def expect(self, status, output):
        same(self.argv, self.answer(), (status, output.encode(), b""))


def lines_of_each(output):
    """The lines of each process, in order, by its number."""
    lines = {}
    for line in output.decode().splitlines(keepends=True):
        lines.setdefault(line.split()[0], []).append(line)
    return {process: "".join(own) for process, own in lines.items()}


def ending_of(lines):
    """What the last line, that of an end, says after `end`."""
    return lines.splitlines(keepends=True)[-1].split(" end ")[1]


def without_threads():
    """No thread can be started from now on: all that the user may have are there."""
    resource.setrlimit(resource.RLIMIT_NPROC, (0, 0))


def with_refused(program, argv, calls, refuses):
    """Runs it, where each of these calls fails whose number `refuses` chooses."""
    return refused_calls.run([program.path, *argv], calls, refuses, prepared(), PATIENCE)


# The status of the process of a test that is left out.
LEFT_OUT = 2


class Runs(Suite):
    """Runs of some programs. They go by the current folder, so each runs in its own process. If root starts them,
    the programs run as nobody, so that a file can be unreadable."""

    def __init__(self, words, programs):
        super().__init__(words)
        self.room = tempfile.mkdtemp(prefix="asancol-")
        self.programs = [self.copied(path, f"{self.room}/{number}") for number, path in enumerate(programs)]

    def copied(self, path, folder):
        os.mkdir(folder, 0o755)
        program = Program(shutil.copy(path, folder))
        os.chmod(program.path, 0o755)
        return program

    def collect(self, module):
        for function in self.marked(module):
            for program in self.programs or [Program("")]:
                of_which = f" of {os.path.basename(program.path)}" if len(self.programs) > 1 else ""
                self.test(f"{function.__name__}{of_which}", function, program)

    def prepare(self):
        if os.geteuid() == 0:
            os.chown(self.room, NOBODY, NOBODY)
            os.setegid(NOBODY)
            os.seteuid(NOBODY)

    def call(self, test, folder):
        with tempfile.TemporaryFile() as said:
            child = os.fork()
            if child == 0:
                os._exit(self.run_here(test, folder, said))
            _, status = os.waitpid(child, 0)
            said.seek(0)
            text = said.read().decode()
        if os.waitstatus_to_exitcode(status) == LEFT_OUT:
            raise LeftOut(text)
        if status != 0:
            raise Failure(text or f"its process ended with {status}")

    def run_here(self, test, folder, said):
        """Runs a test in this process, which is its own, prints the failure, and returns the status to end with."""
        status = 0
        os.chdir(folder)
        try:
            test.run(*test.arguments)
        except LeftOut as why:
            status = LEFT_OUT
            said.write(str(why).encode())
        except BaseException as error:  # whatever it is, the test has failed
            status = 1
            said.write(repr(error).encode())
        said.flush()
        for served in Served.running:
            served.kill()
            served.wait()
        return status

    def clean_up(self):
        os.seteuid(os.getuid())
        os.setegid(os.getgid())
        shutil.rmtree(self.room, ignore_errors=True)


def main(about, add):
    """Runs what `add` adds to a suite. A file on the command line is a program, and anything else a word."""
    request = suite.read(suite.reader_of(about))
    programs = [it for it in request.words if os.path.isfile(it)]
    request.words = [it for it in request.words if it not in programs]
    if not programs and not request.list:
        sys.exit("there is no program to run")

    def make(words):
        made = Runs(words, programs)
        add(made)
        return made

    return suite.run(make, request)
