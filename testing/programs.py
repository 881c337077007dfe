"""The programs of this tree, and runs: in an environment without settings of asancol, and with patience. What takes
longer is killed with all that it has started, and is a failure."""

import contextlib
import os
import shutil
import signal
import socket
import subprocess
import threading
import time
from types import TracebackType
from typing import Any, Callable, Dict, Iterator, List, NamedTuple, Optional, Sequence, Type

from .expectations import Failure

TOP = os.path.dirname(os.path.dirname(os.path.realpath(__file__)))
CC = f"{TOP}/recorder/asancol-cc"
CXX = f"{TOP}/recorder/asancol-c++"
REPORT = f"{TOP}/report/asancol-report"

# For a loop over settings, one turn of which has none.
NO_SETTINGS: Dict[str, str] = {}

# No run may take longer, in seconds. Nothing is measured by it.
PATIENCE = 300
# And awaited events come within this many.
SOON = 20


def environment(*unset: str, **settings: str) -> Dict[str, str]:
    """Returns the environment without what speaks to asancol, or begins with another of these words, and with these
    settings. Without another setting a program has no run of its own."""
    without = ("ASANCOL", "ASAN_OPTIONS", "LSAN_OPTIONS", "NO_COLOR", *unset)
    kept = {name: value for name, value in os.environ.items() if not name.startswith(without)}
    # A copy of the recorder needs no plugins for Clang, which take long to build.
    return {**kept, "LC_ALL": "C", "LLVM_CONFIGS": "", "ASANCOL_RUN": "0", **settings}


class Ran(NamedTuple):
    """A run that has ended. A status below 0 is a signal."""

    status: int
    out: str
    err: str


def text_of(pid: int, name: str) -> str:
    """Returns what the system says of a process; nothing if it has ended."""
    try:
        with open(f"/proc/{pid}/{name}", encoding="utf-8", errors="replace") as file:
            return file.read().strip()
    except OSError:
        return ""


def tree_of(pid: int) -> List[int]:
    """Returns the numbers of a process and of all that it, or one of those, has started, as far as none in between has
    ended."""
    found = [pid]
    parents = {int(it): text_of(int(it), "stat").rpartition(")")[2].split()[1:2] for it in os.listdir("/proc")
               if it.isdigit()}
    for each in found:
        found += [it for it, parent in parents.items() if parent == [str(each)]]
    return found


def kill_tree(pid: int) -> str:
    """Kills a process and all below it. Returns what each was at: where it waited, or where it ran."""
    said = []
    for each in tree_of(pid):
        where = text_of(each, "wchan").strip("0") or text_of(each, "syscall").split(" ")[0]
        said.append(f"{text_of(each, 'comm')} {each} in {where or 'nothing'}")
        try:
            os.kill(each, signal.SIGKILL)
        except OSError:  # it has ended, or another user owns it
            continue
    return ", ".join(said)


@contextlib.contextmanager
def killed_after(pid: int, patience: float = PATIENCE) -> Iterator[None]:
    """Kills a process and all below it if the block takes longer: so who reads what it prints finds an end."""
    late = threading.Timer(patience, kill_tree, [pid])
    late.daemon = True
    late.start()
    try:
        yield
    finally:
        late.cancel()


class Started(subprocess.Popen):  # type: ignore[type-arg]
    """A program that was started. It is waited for with patience, and killed where its `with` ends by an error."""

    def late(self, seconds: Optional[float]) -> Failure:
        return Failure(f"{self.args!r} took more than {seconds or 0:.3g} s: {kill_tree(self.pid)}")

    def wait(self, timeout: Optional[float] = PATIENCE) -> int:
        try:
            return super().wait(timeout)
        except subprocess.TimeoutExpired:
            raise self.late(timeout) from None

    def communicate(self, input: Any = None, timeout: Optional[float] = PATIENCE) -> Any:
        try:
            return super().communicate(input, timeout)
        except subprocess.TimeoutExpired as late:
            raise Failure(f"{self.late(timeout)}; it had printed {late.output!r}") from None

    def line(self) -> Any:
        """Returns the next line that it prints; nothing if it has ended, or is killed since none came."""
        with killed_after(self.pid):
            return self.stdout.readline() if self.stdout else ""

    def __exit__(self, kind: Optional[Type[BaseException]], error: Optional[BaseException],
                 trace: Optional[TracebackType]) -> None:
        if error is not None and self.poll() is None:
            kill_tree(self.pid)
        super().__exit__(kind, error, trace)


def call(argv: Sequence[str], *, input: Any = None, capture_output: bool = False, check: bool = False,
         timeout: Optional[float] = PATIENCE, **options: Any) -> "subprocess.CompletedProcess[Any]":
    """Runs a program as subprocess.run does, with patience."""
    if capture_output:
        options.update(stdout=subprocess.PIPE, stderr=subprocess.PIPE)
    if input is not None:
        options["stdin"] = subprocess.PIPE
    with Started(argv, **options) as program:
        out, err = program.communicate(input, timeout)
    ran: "subprocess.CompletedProcess[Any]" = subprocess.CompletedProcess(argv, program.returncode, out, err)
    if check:
        ran.check_returncode()
    return ran


def run(argv: Sequence[str], folder: str, stdin: Optional[bytes] = None, /,
        **settings: str) -> "subprocess.CompletedProcess[bytes]":
    """Runs a program in a folder, and takes what it prints."""
    return call(argv, cwd=folder, env=environment(**settings), input=stdin or b"", capture_output=True)


def ran_of(ran: "subprocess.CompletedProcess[bytes]", errors: str = "replace") -> Ran:
    return Ran(ran.returncode, ran.stdout.decode(errors=errors), ran.stderr.decode(errors=errors))


def finish(started: "subprocess.Popen[str]", patience: float = PATIENCE) -> Ran:
    """Waits until a program that was started has ended."""
    out, err = started.communicate(timeout=patience)
    return Ran(started.returncode, out, err)


def wait_until(is_so: Callable[[], bool], what: str, patience: float = SOON) -> None:
    """Waits for something that comes soon."""
    end = time.monotonic() + patience
    while not is_so():
        if time.monotonic() > end:
            raise Failure(f"{what} did not come")
        time.sleep(0.02)


def accept(listening: socket.socket) -> socket.socket:
    """Returns the next peer. No wait for it takes longer than PATIENCE."""
    listening.settimeout(PATIENCE)
    peer, _ = listening.accept()
    peer.settimeout(PATIENCE)
    return peer


def join(thread: threading.Thread, what: str, patience: float = PATIENCE) -> None:
    """Waits for the end of a thread."""
    thread.join(patience)
    if thread.is_alive():
        raise Failure(f"{what} did not end")


def compilers_there() -> List[str]:
    """Returns the C compilers that are tested with, as far as they are there."""
    return [it for it in ("gcc", "clang") if shutil.which(it)]


def write_text(path: str, text: str, mode: int = 0o644) -> None:
    with open(path, "w", encoding="utf-8") as file:
        file.write(text)
    os.chmod(path, mode)


def path_without(program: str, folder: str) -> str:
    """Returns a PATH on which this program isn't: a folder of links to all others."""
    links = f"{folder}/programs"
    os.mkdir(links)
    for place in os.environ["PATH"].split(":"):
        for name in os.listdir(place) if os.path.isdir(place) else ():
            if name != program and not os.path.lexists(f"{links}/{name}"):
                os.symlink(os.path.join(os.path.abspath(place), name), f"{links}/{name}")
    return links
