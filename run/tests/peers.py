"""Who may connect to a run: its user, root, and what the command has started, whoever that is by now."""

import itertools
import os
import re
import shutil
import signal
import socket
import subprocess
import time
from typing import List

from support import Suite, expect, expect_ran, finish, leave_out, wait_until
from testing.programs import Started

NOBODY, OTHER = 65534, 65533

# Connects to a name, which may be abstract, this many times, and sends a bad free each time. It stays for some seconds.
STAYS = """
import contextlib, socket, sys, time
peers = [socket.socket(socket.AF_UNIX) for _ in range(int(sys.argv[3]))]
for peer in peers:
    peer.connect(sys.argv[1].replace("@", "\\0"))
    with contextlib.suppress(BrokenPipeError, ConnectionResetError):
        peer.sendall(b"ASTR\\2\\0\\0\\0" + b"\\4" + b"\\1" * 6 + b"\\0\\0" + b"\\7")
time.sleep(float(sys.argv[2]))
"""
# The same in a child that is gone once it has; what it has connected stays open.
GONE = """
import os, socket, sys, time
peer = socket.socket(socket.AF_UNIX)
child = os.fork()
if child == 0:
    peer.connect(sys.argv[1].replace("@", "\\0"))
    os._exit(0)
os.waitpid(child, 0)
print("gone", flush=True)
time.sleep(float(sys.argv[2]))
"""

# Sends something other than a recorder's memory with the first bytes of a trace. Its words name the hub and what it
# sends.
SENDER = """
import array, ctypes, os, socket, sys
hub, what = sys.argv[1:]
shrink = 0x0002
memory = os.memfd_create("side", os.MFD_ALLOW_SEALING)
os.ftruncate(memory, 1 << 20)
text = b"ASWH\\4\\0\\0\\0" + bytes(56) + b"\\x1b]0;x\\x07" * 500
if what in ("sealed", "garbage"):
    found = bytes(32)  # with findings there is a report, whose text this is not about
    garbage = text[:8] + os.urandom(7760) + found + os.urandom(392)
    os.pwrite(memory, text if what == "sealed" else garbage, 0)
    __import__("fcntl").fcntl(memory, 1033, shrink)
if what == "short":
    os.ftruncate(memory, 100)
if what == "unsealed":
    os.pwrite(memory, text, 0)
others = {"pipe": os.pipe()[0], "device": os.open("/dev/zero", os.O_RDONLY), "folder": os.open("/", os.O_RDONLY)}
sent = [others.get(what, memory)] * (200 if what == "many" else 1)
peer = socket.socket(socket.AF_UNIX)
peer.connect(hub)
rights = [(socket.SOL_SOCKET, socket.SCM_RIGHTS, array.array("i", sent))]
peer.sendmsg([b"ASTR\\2\\0\\0\\0"], rights)
if what == "unsealed":
    os.ftruncate(memory, 0)
peer.sendmsg([b"\\7"], rights)
"""


def as_user(user: int) -> List[str]:
    return ["setpriv", f"--reuid={user}", f"--regid={user}", "--clear-groups"]


class Run:
    """A run that goes on until it may end, and the names of its hub."""

    def __init__(self, suite: Suite, folder: str, user: int = 0) -> None:
        os.chmod(folder, 0o777)
        self.suite, self.end_mark, named = suite, f"{folder}/end", f"{folder}/named"
        line = f"{suite.program} sound; echo $ASANCOL_HUB > {named}.new; mv {named}.new {named}; "
        line += f"while [ ! -e {self.end_mark} ]; do sleep 0.05; done"
        self.program = suite.start("-v", "--", "sh", "-c", line, user=user, TMPDIR=folder)
        wait_until(lambda: os.path.exists(named), "the name of the hub")
        with open(named, encoding="utf-8") as file:
            self.hub = file.read().strip()
        self.abstract = f"@{self.hub.rpartition('-')[0]}"

    def run_as(self, user: int, *argv: str) -> str:
        """Runs a command of a user that this run has not started, and returns what it says on standard error."""
        return self.suite.run_argv([*as_user(user), *argv]).err

    def end(self, status: int, *texts: str, **more: List[str]) -> str:
        with open(self.end_mark, "w", encoding="utf-8"):
            pass
        ran = finish(self.program)
        expect_ran(ran, status, *texts, **more)
        return ran.err


def check_stranger(suite: Suite, folder: str, user: int) -> None:
    """Another user's process is refused, with a line, and the run is as without it."""
    run = Run(suite, folder, user)
    expect(run.run_as(OTHER, "python3", "-c", STAYS, run.abstract, "1", "1"), "", "the stranger")
    refused = rf"asancol: a connection was refused: process \d+ of user {OTHER} was not started by this command\n"
    text = run.end(0, "1 process, ", "all complete", absent=["the report"])
    expect(len(re.findall(refused, text)), 1, text)


def check_secret(suite: Suite, folder: str) -> None:
    """The path of the socket is nobody's to find but of the processes that have it in their environment."""
    run = Run(suite, folder)
    private = os.path.dirname(run.hub)
    with open("/proc/net/unix", encoding="utf-8") as file:
        # A connection that is open stands there too, under the name of its socket.
        listed = set(re.findall(rf"\S*{re.escape(private)}\S*", file.read()))
    names = [f"{front}{private}/{end}" for front in ("", "@") for end in ("ask", "hub")]
    expect(sorted(listed), names, "names that the system lists")
    for argv in (["ls", private], ["touch", f"{private}/mark"], ["cat", f"/proc/{run.program.pid}/environ"]):
        expect("Permission denied" in run.run_as(OTHER, *argv), True, " ".join(argv))
    # Who has it may connect, whoever that is.
    expect(run.run_as(OTHER, "python3", "-c", STAYS, run.hub, "0", "1"), "", "another user who has it")
    run.end(99, absent=["refused"])


def check_same_user(suite: Suite, folder: str) -> None:
    """Processes of the user of the run, and of root, are let in, whoever has started them."""
    run = Run(suite, folder, NOBODY)
    for user in (NOBODY, 0):
        expect(run.run_as(user, "python3", "-c", STAYS, run.abstract, "0", "1"), "", f"user {user}")
    run.end(99, absent=["refused"])


def check_descendant(suite: Suite, folder: str) -> None:
    """What the command has started is let in, whoever it has become, and also if it ends at once. If it can't see the
    folder it uses the abstract name."""
    words = " ".join(as_user(NOBODY))
    line = f"{words} {suite.program} sound; {words} sh -c '{suite.program} child; true'"
    expect_ran(suite.run("--", "sh", "-c", line), 99, absent=["refused"])
    line = f"ASANCOL_HUB=${{ASANCOL_HUB%-*}} {words} {suite.program} past_and_sleeps 0.5"
    expect_ran(suite.run("--", "sh", "-c", line), 99, absent=["refused"])


def check_many_strangers(suite: Suite, folder: str) -> None:
    """However often strangers connect, there are few lines."""
    run = Run(suite, folder)
    expect(run.run_as(OTHER, "python3", "-c", STAYS, run.abstract, "2", "300"), "", "the stranger")
    text = run.end(0, "asancol: 292 more connections were refused", "1 process, ", "all complete")
    expect(text.count("was refused"), 8, text)


def check_gone(suite: Suite, folder: str) -> None:
    """Of a process that is gone nobody knows who has started it: it may have been the command. So not all was seen."""
    run = Run(suite, folder)
    why = f"INCOMPLETE: it belongs to user {OTHER}, and ended before its parent was known"
    os.kill(run.program.pid, signal.SIGSTOP)
    gone = [*as_user(OTHER), "python3", "-c", GONE, run.abstract, "1"]
    expect(suite.run_argv(gone).out, "gone\n", "the process that has connected")
    os.kill(run.program.pid, signal.SIGCONT)
    run.end(98, why, "a connection was refused", "2 processes, ")


def check_gone_of_known_user(suite: Suite, folder: str) -> None:
    """If the command has others of this user, it is let in."""
    gone, words = f"{folder}/gone.py", " ".join(as_user(OTHER))
    with open(gone, "w", encoding="utf-8") as file:
        file.write(GONE)
    os.chmod(folder, 0o755)
    line = f"{suite.program} sound; kill -STOP $PPID; {words} python3 {gone} @${{ASANCOL_HUB%-*}} 1.5"
    run = suite.start("--", "sh", "-c", line)
    time.sleep(1)
    os.kill(run.pid, signal.SIGCONT)
    expect_ran(finish(run), 98, "it was not recorded, or not by this run", absent=["refused"])


# Takes the mark of a run, and becomes a program without an environment.
MARKED = """
import ctypes, os, sys
ctypes.CDLL(None).prctl(29, int(sys.argv[1]))
os.execve(sys.argv[2], sys.argv[2:], {"ASANCOL_RUN": "0"})
"""


def mark_of(name: str) -> int:
    """What the timer slack of a run's processes has of the name of its socket (common/inherited.h)."""
    number = 2166136261
    for byte in name.encode():
        number = (number ^ byte) * 16777619 % (1 << 32)
    return (number >> 8) % 2048


def socket_with_the_mark_of(hub: str) -> socket.socket:
    """Makes a socket that nobody listens at, whose abstract name has the mark of a run's, and comes after it in the
    system's list."""
    names = (f"{hub}/of-another-{number}" for number in itertools.count())
    for name in (it for it in names if mark_of(it) == mark_of(hub)):
        made = socket.socket(socket.AF_UNIX)
        made.bind(f"\0{name}")
        with open("/proc/net/unix", encoding="utf-8", errors="replace") as listed:
            marked = [it.split("@")[-1].strip() for it in listed if it.strip().endswith((f"@{hub}", f"@{name}"))]
        if marked[0] == hub:
            break
        made.close()
    return made


def check_asked(suite: Suite, folder: str) -> None:
    """A process that the command has not started gets no settings, whatever mark it has: it runs as by itself. So it
    does where another socket's name has this mark."""
    run = Run(suite, folder)
    other = socket_with_the_mark_of(run.abstract[1:])
    number = run.program.pid
    with open(f"/proc/{number}/task/{number}/children", encoding="utf-8") as children:
        child = children.read().split()[0]
    with open(f"/proc/{child}/timerslack_ns", encoding="utf-8") as slack:
        argv = ["python3", "-c", MARKED, slack.read().strip(), suite.program, "past"]
    for words in (argv, [*as_user(OTHER), *argv]):
        ran = suite.run_argv(words)
        expect((ran.status, ran.err), (0, ""), f"{words}")
    other.close()
    run.end(0, "1 process, ", "all complete", absent=["refused"])


def check_other_user(suite: Suite, folder: str) -> None:
    """A process with a cleaned environment need not trust a run of another user than root: it says so."""
    become = shutil.copy(shutil.which("setpriv") or "", f"{folder}/become")
    os.chmod(folder, 0o777)
    os.chmod(become, 0o4755)
    line = f"{become} {' '.join(as_user(OTHER)[1:])} env -i {suite.program} sound; {suite.program} sound"
    why = "INCOMPLETE: it runs as another user than asancol-run, and need not trust its settings"
    expect_ran(finish(suite.start("--", "sh", "-c", line, user=NOBODY, TMPDIR=folder)), 98, why, "2 processes, ",
               absent=["refused"])
    words = " ".join(as_user(OTHER))
    expect_ran(suite.run("--", "sh", "-c", f"{words} env -i {suite.program} past"), 99, absent=["refused"])


# Listens under an abstract name, and says what it gets.
SQUATTER = """
import socket, sys
hub = socket.socket(socket.AF_UNIX)
hub.bind("\\0" + sys.argv[1])
hub.listen()
print("listens", flush=True)
peer = hub.accept()[0]
print(len(peer.recv(4096)), flush=True)
"""


def check_squatter(suite: Suite, folder: str) -> None:
    """An abstract name may be another user's: a process does not tell him what it does, and leaves a file."""
    os.chmod(folder, 0o777)
    hub = f"{folder}/hub"
    for user, gets in ((OTHER, "0"), (NOBODY, "8")):
        argv = [*as_user(user), "python3", "-c", SQUATTER, hub]
        squatter = Started(argv, stdout=subprocess.PIPE, text=True)
        expect(squatter.line(), "listens\n", "the other")
        ran = suite.run_argv([*as_user(NOBODY), suite.program, "sound"], ASANCOL_HUB=hub)
        expect(squatter.line(), f"{gets}\n", f"what user {user} gets")
        squatter.communicate()
        is_file = "so the trace goes to a file: " in ran.err and "its name is another user's" in ran.err
        expect(is_file, gets == "0", ran.err)
    expect(len([it for it in os.listdir(folder) if it.endswith(".trace")]), 1, "files")


def check_descriptors(suite: Suite, folder: str) -> None:
    """Whatever descriptors come with a trace, it is checked. Names are printed without what controls a terminal."""
    sender = f"{folder}/sender.py"
    with open(sender, "w", encoding="utf-8") as file:
        file.write(SENDER)
    for what in ("pipe", "device", "folder", "short", "unsealed", "many", "garbage", "sealed"):
        line = f"{suite.program} sound; python3 {sender} $ASANCOL_HUB {what}; {suite.program} sound"
        ran = suite.run("-v", "--leaks=no", "--", "sh", "-c", line)
        # Without such a memory nobody knows what the process has found by itself.
        expect_ran(ran, 98, "3 processes, 4 events", absent=["\x1b", "\x07"])


def tests(suite: Suite) -> None:
    suite.test("peer: descriptors", check_descriptors)
    if os.geteuid() != 0 or not shutil.which("setpriv"):
        leave_out("peers of other users: root alone can be another user, by setpriv")
        return
    os.chmod(suite.folder, 0o755)
    suite.test("peer: stranger to root", check_stranger, 0)
    suite.test("peer: stranger to a user", check_stranger, NOBODY)
    suite.test("peer: secret", check_secret)
    suite.test("peer: same user", check_same_user)
    suite.test("peer: of the command", check_descendant)
    suite.test("peer: many strangers", check_many_strangers)
    suite.test("peer: gone", check_gone)
    suite.test("peer: gone, of a known user", check_gone_of_known_user)
    suite.test("peer: asked by others", check_asked)
    suite.test("peer: another user than root", check_other_user)
    suite.test("peer: squatter", check_squatter)
