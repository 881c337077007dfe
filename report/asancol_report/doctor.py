"""What a machine lacks for checking programs, as `asancol-run --doctor` prints it."""

from __future__ import annotations

import os
import resource
import shlex
import subprocess
import tempfile
from typing import Dict, List, Optional, Set, Tuple

from . import RELEASE
from .symbols import find_tool, is_llvm, on_path

# A program with an overflow in the line of its mark, and with a leak, for which another thread has to stop.
SAMPLE = """\
#include <pthread.h>
#include <stdlib.h>
#include <unistd.h>
static void *sleeps(void *it) { sleep(1000); return it; }
static char *volatile kept;
int main(void) {
    pthread_t thread;
    pthread_create(&thread, NULL, sleeps, NULL);
    kept = malloc(16);
    kept = malloc(5);
    kept[5] = 1; /* here */
    return 0;
}
"""
OVERFLOW, LINE = "heap-buffer-overflow", f"sample.c:{SAMPLE[:SAMPLE.index('/* here')].count(chr(10)) + 1}"
LEAK = "leak of 16 byte(s)"
REPORTED = 99
# In the line of a run with all that it saw.
SUMMARY = "; all complete"
# Seconds that one command may take.
PATIENCE = 60

# The wrappers, and the compiler of each.
WRAPPERS = [("asancol-cc", "cc"), ("asancol-clang", "clang")]
# Settings that a program of the same name without them does not have.
FRONTS = ("ASANCOL", "ASAN_", "LSAN_", "LD_PRELOAD", "GLIBC_TUNABLES", "MALLOC_")
# Without which the sample is run: they may ask for another status.
WITHOUT = ("ASANCOL_RUN", "ASAN_OPTIONS", "LSAN_OPTIONS")


class Doctor:
    """Prints a line for each thing that it looks at, and counts those that are wrong."""

    def __init__(self, run: str, beside: str) -> None:
        self.run = run
        self.folders = [os.path.dirname(run), os.path.join(os.path.dirname(run), "..", "recorder"),
                        os.path.join(os.path.dirname(run), ".."), beside]
        self.counts: Dict[str, int] = {"error": 0, "warning": 0}
        self.warned: Set[str] = set()

    def say(self, what: str, text: str) -> None:
        print(f"{what}: {text}", flush=True)
        if what in self.counts:
            self.counts[what] += 1

    def warn(self, text: str) -> None:
        if text not in self.warned:
            self.say("warning", text)
        self.warned.add(text)

    def find(self, name: str) -> Optional[str]:
        """Returns where a program of asancol is: beside asancol-run, or on the path."""
        found = [path for path in (os.path.join(it, name) for it in self.folders) if os.access(path, os.X_OK)]
        return os.path.normpath(found[0]) if found else on_path(name)

    def look_at_programs(self) -> None:
        self.say("ok", f"asancol-run {RELEASE}: {self.run}")
        checker = os.environ.get("ASANCOL") or self.find("asancol")
        status, answer = ask([checker, "--version"]) if checker else (127, "")
        if checker is None:
            self.say("error", "asancol, the checker, is missing: install the whole package, or name it in ASANCOL")
        elif status in (126, 127):
            self.say("error", f"asancol, the checker, does not start: {answer or checker}")
        elif answer.startswith("asancol ") and answer.split()[1] != RELEASE:
            self.say("warning", f"{' '.join(answer.split()[:2])} is of another release: {checker}: "
                     "install the whole package")
        else:
            self.say("ok", f"asancol {RELEASE}: {checker}")
        self.look_for_tool()

    def look_for_tool(self) -> None:
        tool, why = find_tool()
        if tool is None:
            self.say("warning", f"reports have no lines: {why}: install the package llvm or binutils")
        elif is_llvm(tool):
            self.say("ok", f"lines of reports: {tool}")
        else:
            self.say("note", f"lines of reports: {tool}; llvm-symbolizer is faster: install the package llvm")

    def look_at_settings(self) -> None:
        for name in sorted(os.environ):
            if name.startswith(FRONTS) and not (name == "ASANCOL_RUN" and os.environ[name] == "0"):
                self.say("note", f"{name}={os.environ[name]} is set")
        if os.environ.get("ASANCOL_RUN") == "0":
            self.say("warning", "ASANCOL_RUN=0 is set: programs that are run by themselves are not checked")

    def look_at_limits(self) -> None:
        for name, what in (("RLIMIT_AS", "v"), ("RLIMIT_DATA", "d")):
            limit = resource.getrlimit(getattr(resource, name))[0]
            if limit != resource.RLIM_INFINITY:
                self.say("error", f"ulimit -{what} is {limit // 1024}: a checked program reserves 16 TB of addresses, "
                         f"and does not start: ulimit -{what} unlimited")
        if limit_of(resource.RLIMIT_FSIZE) is not None:
            self.say("warning", f"ulimit -f is {limit_of(resource.RLIMIT_FSIZE)} bytes: the recording of a process "
                     "that needs more ends: ulimit -f unlimited")
        most = resource.getrlimit(resource.RLIMIT_NOFILE)[1]
        if 0 <= most < 256:
            self.say("warning", f"ulimit -Hn is {most}: each process that is checked at a time needs three: "
                     "ulimit -Hn 4096")
        if text_of("/proc/sys/vm/overcommit_memory") == "2":
            self.say("error", "vm.overcommit_memory is 2: a checked program reserves 16 TB of addresses, and does not "
                     "start: sysctl vm.overcommit_memory=0")

    def look_at_samples(self) -> None:
        """Finds the bug with each compiler that is there, unless it is known why it can't."""
        looked = 0
        if self.counts["error"]:
            self.say("note", "no sample was tried: mend the errors above first")
            return
        for name, compiler in WRAPPERS:
            wrapper = self.find(name)
            if wrapper is None or on_path(compiler) is None:
                missing = name if wrapper is None else compiler
                self.say("note", f"{name} was not tried: {missing} is not on the path")
                continue
            looked += 1
            self.say("ok", f"{name}: {wrapper}, with {ask([wrapper, '--version'])[1].splitlines()[0]}")
            with tempfile.TemporaryDirectory(prefix="asancol-doctor-") as folder:
                self.try_sample(name, wrapper, folder)
        if looked == 0:
            self.say("error", "no program can be built: neither cc nor clang is on the path: install gcc or clang")

    def try_sample(self, name: str, wrapper: str, folder: str) -> None:
        with open(f"{folder}/sample.c", "w", encoding="utf-8") as file:
            file.write(SAMPLE)
        status, text = ask([wrapper, "-g", "-pthread", "sample.c", "-o", "sample"], folder)
        for line in text.splitlines():
            self.say("error" if status else "warning", line)
        if status:
            self.say("error", f"{name} compiles nothing: it ended with status {status}")
            return
        alone = {it: value for it, value in os.environ.items() if not it.startswith(WITHOUT)}
        for how, argv in (("under asancol-run", [self.run, "--", "./sample"]), ("by itself", ["./sample"])):
            self.judge(name, how, *ask(argv, folder, alone))

    def judge(self, name: str, how: str, status: int, text: str) -> None:
        """Says whether a run found both bugs, and what it printed if it did not."""
        what = f"{name}: a sample program {how}"
        found = {"the overflow": OVERFLOW in text, "its line": LINE in text, "the leak": LEAK in text,
                 f"status {REPORTED}": status == REPORTED}
        lacks = [it for it, is_there in found.items() if not is_there]
        if not lacks:
            self.say("ok", f"{what}: its two bugs are found")
            self.warn_of(name, text)
            return
        self.say("error", f"{what}: without {', '.join(lacks)}; it ended with status {status}, and printed:")
        print("".join(f"    {line}\n" for line in text.splitlines()), end="", flush=True)


    def warn_of(self, name: str, text: str) -> None:
        """Passes on what a run says besides its reports, once."""
        for line in text.splitlines():
            front, colon, rest = line.partition(": ")
            skipped = line.partition("; not checked: ")[2]
            if front == "asancol" and colon and (skipped or SUMMARY not in rest):
                self.warn(f"{name}: {f'not checked: {skipped}' if skipped else rest}")


def limit_of(what: int) -> Optional[int]:
    limit = resource.getrlimit(what)[0]
    return None if limit == resource.RLIM_INFINITY else limit


def text_of(path: str) -> str:
    try:
        with open(path, encoding="utf-8") as file:
            return file.read().strip()
    except OSError:
        return ""


def ask(argv: List[str], folder: str = ".", environment: Optional[Dict[str, str]] = None) -> Tuple[int, str]:
    """Returns the status of a command, as a shell has it, and all that it prints."""
    try:
        ran = subprocess.run(argv, cwd=folder, env=environment, stdin=subprocess.DEVNULL, stdout=subprocess.PIPE,
                             stderr=subprocess.STDOUT, timeout=PATIENCE)
    except OSError as error:
        return 127, f"{shlex.join(argv)}: {error.strerror}"
    except subprocess.TimeoutExpired as error:
        return 124, f"{(error.stdout or b'').decode(errors='replace')}\n{argv[0]} took more than {PATIENCE} seconds"
    status = ran.returncode if ran.returncode >= 0 else 128 - ran.returncode
    return status, ran.stdout.decode(errors="replace")


def look(run: str, beside: str) -> int:
    """Looks at everything for the asancol-run of this path, and returns the status."""
    doctor = Doctor(run, beside)
    doctor.look_at_programs()
    doctor.look_at_settings()
    doctor.look_at_limits()
    doctor.look_at_samples()
    errors, warnings = doctor.counts["error"], doctor.counts["warning"]
    print(f"{errors} error{'s' * (errors != 1)}, {warnings} warning{'s' * (warnings != 1)}", flush=True)
    return 1 if errors else 0
