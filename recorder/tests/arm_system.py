"""Programs for ARM in an emulated system, whose kernel has addresses of 48 bits and pages of its own size: what an
emulator of processes does not have. ARM_KERNEL in the environment is the kernel, a file such as Debian's vmlinuz for
arm64; without it these tests are left out."""

import os
import re
import shutil
import stat
from typing import Dict, List

import arm
from support import TESTS, Compiler, Suite, build, expect, leave_out, run
from testing import Later
from testing.programs import REPORT

SYSTEM = "qemu-system-aarch64"
LIBRARIES = ("ld-linux-aarch64.so.1", "libc.so.6")
# Bugs in each kind of memory, and in calls, threads and handlers.
WORDS = ("heap", "freed", "twice", "stack", "variable", "scope", "copies", "thread", "handler", "returns")
FILE = re.compile(r"^FILE /out/(\S+) (\d+)\s*$")
ROW = re.compile(r"^ROW (\d+) ([0-9a-f]{32})\s*$")
# The address in the second line of a report.
PLACE = re.compile(r"^ +0x([0-9a-f]+) is ", re.M)


def entry(name: str, mode: int, data: bytes, device: int = 0) -> bytes:
    """Returns a file as an archive of cpio has it: its head, its name and its bytes, each in multiples of 4."""
    number = len(name) + 1
    fields = (number, mode, 0, 0, 1, 0, len(data), 0, 0, device >> 8, device & 255, number, 0)
    head = b"070701" + b"".join(b"%08x" % it for it in fields) + name.encode() + b"\0"
    return b"".join(it + bytes(-len(it) % 4) for it in (head, data))


def file_entry(name: str, path: str) -> bytes:
    with open(path, "rb") as file:
        return entry(name.lstrip("/"), stat.S_IFREG | 0o755, file.read())


def archive(folder: str, program: str) -> None:
    """Writes what the system finds at its start. The program has the path that it has here."""
    parents: List[str] = ["dev", "lib"]
    for name in program.strip("/").split("/")[:-1]:
        parents.append(f"{parents[-1]}/{name}" if len(parents) > 2 else name)
    entries = [entry(it, stat.S_IFDIR | 0o755, b"") for it in parents]
    entries += [entry("dev/console", stat.S_IFCHR | 0o600, b"", 5 << 8 | 1), file_entry("init", f"{folder}/init")]
    entries += [file_entry(f"lib/{it}", f"/usr/{arm.MACHINE}/lib/{it}") for it in LIBRARIES]
    entries += [file_entry(program, program), entry("TRAILER!!!", 0, b"")]
    with open(f"{folder}/initrd", "wb") as file:
        file.write(b"".join(entries))


def files_of(console: str, folder: str) -> None:
    """Writes the files that the console shows."""
    files: Dict[str, bytearray] = {}
    current = bytearray()
    for line in console.splitlines():
        head, row = FILE.match(line), ROW.match(line)
        if head:
            current = files.setdefault(head[1], bytearray(int(head[2])))
        elif row:
            at = int(row[1])
            current[at:at + 16] = bytes.fromhex(row[2])[:max(len(current) - at, 0)]
    for name, data in files.items():
        with open(f"{folder}/{name}", "wb") as file:
            file.write(data)


def check_system(suite: Suite, folder: str, kernel: str, program: str) -> None:
    """Each bug has the report that it has elsewhere, and an address there has all its bits."""
    build([arm.CROSS, "-O1", "-static", f"{TESTS}/arm_init.c", "-o", "init"], folder)
    archive(folder, os.path.realpath(program))
    words = " ".join([os.path.realpath(program), *WORDS])
    console = run([SYSTEM, "-M", "virt", "-cpu", "cortex-a57", "-m", "1500", "-smp", "2", "-nographic", "-no-reboot",
                   "-nic", "none", "-kernel", kernel, "-initrd", "initrd", "-append",
                   f"console=ttyAMA0 rdinit=/init quiet panic=-1 -- {words}"], folder).stdout.decode(errors="replace")
    files_of(console, folder)
    for word in WORDS:
        expect(f"STATUS {word} 0" in console, True, console[:2000])
        text = run([REPORT, "--trace", f"{word}.trace"], folder, ASANCOL=suite.asancol).stdout.decode()
        kind, function = arm.BUGS[word]
        line = arm.line_of({"in_thread": "thread", "on_signal": "handler"}.get(function, function))
        expect(arm.first_of(arm.BY_ASANCOL, text), arm.Said(kind, function, line), text)
        place = PLACE.search(text)
        if word == "variable":
            expect(place is not None and int(place[1], 16) > 1 << 46, True, text)


def tests_of_all(suite: Suite) -> None:
    kernel = os.environ.get("ARM_KERNEL", "")
    missing = arm.what_is_missing() or next((it for it in (SYSTEM,) if shutil.which(it) is None), "")
    if missing or not kernel:
        leave_out(f"programs for ARM in an emulated system: {missing or 'ARM_KERNEL'} is not there")
        return
    library = Later(arm.RECORDER, arm.make_library)
    program = Later(f"{suite.folder}/arm-O1", arm.make_program, suite.folder, library, "-O1")
    suite.long_test("arm: an emulated system", check_system, kernel, program)


def tests(suite: Suite, compiler: Compiler) -> None:
    """None of them is by a compiler for this machine."""
