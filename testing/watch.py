"""Ends tests that hang. One that waits for a program waits for what that has started too, if it holds the same pipe."""

import faulthandler
import os
import signal
import sys
import threading
import time
from types import TracebackType
from typing import Dict, List, Optional, Tuple, Type

# No test may take longer, in seconds. Nothing is measured by it.
LONGEST = 900
# So much later, in seconds, one that still hangs ends all tests.
GRACE = 120
# So often is looked, in seconds.
BETWEEN = 5


def is_of(pid: str, folder: str) -> bool:
    """Returns whether a process is in a folder of a test, or was told of it by its arguments or environment."""
    try:
        if (os.readlink(f"/proc/{pid}/cwd") + "/").startswith(f"{folder}/"):
            return True
        said = b""
        for name in ("cmdline", "environ"):
            with open(f"/proc/{pid}/{name}", "rb") as file:
                said += file.read()
        return folder.encode() in said
    except OSError:  # it has ended
        return False


def kill_all(folder: str) -> List[str]:
    """Kills all processes of a test, and returns their names."""
    names = []
    for pid in filter(str.isdigit, os.listdir("/proc")):
        if int(pid) != os.getpid() and is_of(pid, folder):
            try:
                with open(f"/proc/{pid}/comm", encoding="utf-8", errors="replace") as file:
                    names.append(file.read().strip())
                os.kill(int(pid), signal.SIGKILL)
            except OSError:  # it has ended, or another user owns it
                continue
    return names


class Watch:
    """Looks after the tests that run, in a thread of its own. It kills what a test has started that takes too long, and
    ends all if the test hangs nevertheless."""

    def __init__(self, longest: float = LONGEST, grace: float = GRACE, between: float = BETWEEN) -> None:
        self.longest, self.grace, self.between = longest, grace, between
        # Each test's folder, with its name and when it began; guarded by `changing`.
        self.running: Dict[str, Tuple[str, float]] = {}
        self.killed: Dict[str, List[str]] = {}  # the names of killed programs; guarded by `changing`
        self.changing = threading.Lock()
        self.is_over = threading.Event()
        self.thread = threading.Thread(target=self.look_after, daemon=True)

    def __enter__(self) -> "Watch":
        self.thread.start()
        return self

    def __exit__(self, kind: Optional[Type[BaseException]], error: Optional[BaseException],
                 trace: Optional[TracebackType]) -> None:
        self.is_over.set()
        self.thread.join()

    def begin(self, name: str, folder: str) -> None:
        with self.changing:
            self.running[folder] = name, time.monotonic()

    def end(self, folder: str) -> str:
        """Returns why the test has failed, if it was ended from here, or nothing."""
        with self.changing:
            self.running.pop(folder)
            names = self.killed.pop(folder, None)
        if names is None:
            return ""
        return f"took more than {self.longest:g} s, so what it ran was killed: {', '.join(names) or 'no process'}"

    def look_after(self) -> None:
        while not self.is_over.wait(self.between):
            now = time.monotonic()
            with self.changing:
                late = {it: now - began for it, (_, began) in self.running.items() if now - began > self.longest}
            for folder, seconds in late.items():
                with self.changing:  # so that a test which ends by this finds it noted
                    if folder in self.running:
                        self.killed.setdefault(folder, []).extend(kill_all(folder))
                if seconds > self.longest + self.grace:
                    self.give_up(folder)

    def give_up(self, folder: str) -> None:
        """Ends this process, with a line that counts as one failure."""
        with self.changing:
            if folder not in self.running:
                return
            name, _ = self.running[folder]
        faulthandler.dump_traceback(all_threads=True)
        print(f"FAILED {name}: it hangs, though what it ran was killed; no other test was counted")
        print("0 passed, 1 failed", flush=True)
        sys.stderr.flush()
        os._exit(1)
