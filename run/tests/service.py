"""An endless service: asancol-listen, and the units of systemd, whose command lines run here without it."""

import ctypes
import os
import re
import resource
import shutil
import signal
import socket
import struct
import subprocess
import time
from typing import Any, Callable, Dict, List, NamedTuple, Optional

from support import (
    CC, PATIENCE, TESTS, TOP, Failure, Suite, expect, expect_in, leave_out, wait_until, write_text,
)
from testing.programs import Started, call

EXAMPLES = f"{TOP}/examples/service"
LISTEN = f"{TOP}/listen/asancol-listen"
# How much `systemd-analyze security` may find, from 0 to 10.
MAX_EXPOSED = 0.4
HEADER = b"ASTR\2\0\0\0"


class Result(NamedTuple):
    status: str  # or "open"
    process: int
    user: int
    text: str


def text_of(path: str) -> str:
    with open(path, encoding="utf-8") as file:
        return file.read()


def result_of(folder: str, name: str) -> Result:
    parts = re.fullmatch(r"[\d.]+-(\d+)-(\d+)\.(open|-?\d+)", name)
    if parts is None:
        raise Failure(f"an odd name: {name}")
    return Result(parts[3], int(parts[1]), int(parts[2]), text_of(f"{folder}/{name}"))


class Service:
    """An asancol-listen that runs, and the folder for what its commands print."""

    def __init__(self, suite: Suite, folder: str, *options: str, command: Optional[List[str]] = None) -> None:
        self.suite = suite
        self.socket, self.folder = f"{folder}/socket", f"{folder}/results"
        os.makedirs(self.folder, exist_ok=True)
        argv = [LISTEN, *options, self.socket, self.folder, *(command or [suite.asancol, "check", "--live", "-"])]
        before = self.made_at()
        self.program = Started(argv, env=suite.environment(), stderr=subprocess.PIPE, text=True)
        wait_until(lambda: self.program.poll() is not None or self.made_at() not in (0, before), "the socket")

    def made_at(self) -> int:
        """When its socket was made; 0: it is not there, or nobody may connect yet."""
        try:
            seen = os.stat(self.socket)
        except FileNotFoundError:
            return 0
        return seen.st_mtime_ns if seen.st_mode & 0o200 else 0

    def record(self, *argv: str, **settings: Any) -> int:
        """Runs a recorded program, and returns the number of its process."""
        return self.start(*argv, **settings).pid

    def start(self, *argv: str, ends: bool = True, **settings: str) -> "subprocess.Popen[bytes]":
        environment = self.suite.environment(**{"ASANCOL_SOCKET": self.socket, **settings})
        program = Started(argv, env=environment, stdout=subprocess.DEVNULL, stderr=subprocess.DEVNULL)
        if ends:
            program.wait(PATIENCE)
        return program

    def connect(self, data: bytes = b"") -> socket.socket:
        peer = socket.socket(socket.AF_UNIX)
        peer.settimeout(PATIENCE)
        peer.connect(self.socket)
        peer.sendall(data)
        return peer

    def results(self) -> List[Result]:
        """What has been printed, in the order in which the processes connected."""
        end = time.monotonic() + PATIENCE
        while True:
            try:
                return [result_of(self.folder, name) for name in sorted(os.listdir(self.folder))]
            except FileNotFoundError:  # it has got its last name
                if time.monotonic() > end:
                    raise

    def of_process(self, number: int) -> Result:
        """Waits for the result of a process."""
        found: Dict[int, Result] = {}

        def has_come() -> bool:
            found.update((it.process, it) for it in self.results() if it.status != "open")
            return number in found

        wait_until(has_come, f"the result of process {number}")
        return found[number]

    def end(self) -> str:
        """Ends it, and returns what it has said."""
        self.program.terminate()
        said = self.program.communicate(timeout=PATIENCE)[1]
        expect(self.program.returncode, 0, f"the status of asancol-listen: {said}")
        return said


def check_results(suite: Suite, folder: str) -> None:
    """Each process has a file with its number, its user and its status, and no other process's lines are in it."""
    service = Service(suite, folder)
    sound, past = (service.record(suite.program, word) for word in ("sound", "past"))
    expect(service.of_process(sound)[0:3], ("0", sound, os.getuid()), "sound")
    expect_in(service.of_process(sound).text, "p0 end closed events 2 ")
    expect_in(service.of_process(past).text, "p0 #3 store 1 at ", " heap-buffer-overflow ", " reports 1\n")
    expect(service.of_process(past).status, "1", "past")
    with service.connect(b"no trace"):
        pass
    garbage = service.of_process(os.getpid())
    expect((garbage.status, garbage.text), ("3", "p0 end malformed header events 0 offset 0 reports 0\n"), "garbage")
    expect(service.end(), "", "what it said")
    expect(os.path.exists(service.socket), False, "that the socket is left")


def check_killed(suite: Suite, folder: str) -> None:
    """What a process did before SIGKILL is checked, and it has no close. As from a hub, a fault comes at once."""
    service = Service(suite, folder)
    program = service.start(suite.program, "past_and_sleeps", "60", ends=False, ASANCOL_HUB=service.socket)
    wait_until(lambda: any("heap-buffer-overflow" in it.text for it in service.results()), "the report while it runs")
    program.kill()
    program.wait()
    result = service.of_process(program.pid)
    # What it allocates for its output after that may have come too.
    expect_in(result.text, " heap-buffer-overflow ", "p0 end no-close events ")
    expect(result.status, "3", "status")
    service.end()


def check_children(suite: Suite, folder: str) -> None:
    """A forked child is recorded if the socket is named as a hub, and not as a collector for known processes."""
    for name, reports in (("ASANCOL_HUB", [" heap-use-after-free "]), ("ASANCOL_SOCKET", ())):
        service = Service(suite, f"{folder}/{name}")
        service.record(suite.program, "child", **{name: service.socket})
        service.end()
        found = service.results()
        expect(len(found), 1 + len(reports), f"{name}: processes")
        expect([it.status for it in found], ["0", "1"][: len(found)], f"{name}: statuses")
        expect_in(found[-1].text, "p0 end closed ", *reports)


def check_threads(suite: Suite, folder: str) -> None:
    """A process has a close if it ends in its last thread. A joined thread may still be on its way out."""
    program = f"{folder}/threads"
    for flags in ((), ("-static",)):
        call([CC, "-g", "-pthread", *flags, f"{TESTS}/threads.c", "-o", program], check=True)
        service = Service(suite, f"{folder}/threads{len(flags)}")
        for name, end in (("alone", "closed"), ("joined", "closed"), ("first_has_ended", "closed"),
                          ("detached", "no-close"), ("cloned", "no-close")):
            for _ in range(5):
                number = service.record(program, name, ASANCOL_HUB=service.socket)
                expect_in(service.of_process(number).text, f"p0 end {end} ")
        service.end()


def check_silent(suite: Suite, folder: str) -> None:
    """Peers that say nothing hold nobody up, except the places that they have: who has none waits."""
    service = Service(suite, folder, "--connections", "3")
    silent = [service.connect() for _ in range(2)]
    first = service.record(suite.program, "past")
    expect(service.of_process(first).status, "1", "beside two that are silent")
    silent.append(service.connect())
    waits = service.start(suite.program, "past", ends=False)
    time.sleep(0.3)
    expect(waits.pid in [it.process for it in service.results()], False, "that it is let in")
    silent.pop().close()
    expect(service.of_process(waits.pid).status, "1", "when there is a place again")
    waits.wait()
    for peer in silent:
        peer.close()
    service.end()
    expect(sorted(it.status for it in service.results()), ["1", "1", "3", "3", "3"], "statuses")


def check_end(suite: Suite, folder: str) -> None:
    """Who has connected before the end is served; a second signal ends it."""
    service = Service(suite, folder)
    peers = [service.connect(HEADER) for _ in range(2)]
    service.program.terminate()
    wait_until(lambda: not os.path.exists(service.socket), "the end of the socket")
    peers[0].sendall(b"\7")
    peers[0].close()
    wait_until(lambda: [it.status for it in service.results()] == ["0", "open"], "the first result")
    service.end()
    expect([it.status for it in service.results()], ["0", str(-signal.SIGTERM)], "statuses")
    peers[1].close()


def check_other_server(suite: Suite, folder: str) -> None:
    """A socket that nobody serves any more is replaced, and one that is served is not."""
    service = Service(suite, folder)
    other = Service(suite, folder)
    said = other.program.communicate(timeout=PATIENCE)[1]
    expect((other.program.returncode, "Address already in use" in said), (1, True), said)
    expect(service.results(), [], "what came of the other one")
    service.program.kill()
    service.program.communicate()
    again = Service(suite, folder)
    expect(again.of_process(again.record(suite.program, "sound")).status, "0", "the one after it")
    again.end()


def check_refused(suite: Suite, folder: str) -> None:
    """What can't be served, and why, is said at once; what another file is stays."""
    socket_path, results, file = f"{folder}/s", f"{folder}/results", f"{folder}/file"
    long_path = f"{folder}/{'s' * 100}"
    os.mkdir(results)
    write_text(file, "mine\n")
    for argv, status, said in (
        ((), 2, "no SOCKET was given"),
        ([socket_path, results], 2, "no COMMAND was given"),
        (["--mod", "600", socket_path, results, "true"], 2, "unknown option --mod"),
        (["--group", "--", socket_path, results, "true"], 2, "--group needs a value"),
        (["--mode=888", socket_path, results, "true"], 2, "--mode: '888' is not octal digits (000 to 777)"),
        (["--connections", "0", socket_path, results, "true"], 2,
         "--connections: '0' is not a number (1 to 999999999)"),
        (["--group", "nobody's", socket_path, results, "true"], 1, "s: there is no group nobody's"),
        ([socket_path, f"{folder}/none", "true"], 1, f"{folder}/none: No such file or directory"),
        ([socket_path, file, "true"], 1, f"{file}: Not a directory"),
        ([socket_path, results, "no-such-program"], 1, "no-such-program: there is no such program on the PATH"),
        ([socket_path, results, "--", f"{folder}/none"], 1, f"{folder}/none: No such file or directory"),
        ([socket_path, results, "--", file], 1, f"{file}: Permission denied"),
        ([f"{folder}/none/s", results, "true"], 1, f"{folder}/none/s: No such file or directory"),
        ([long_path, results, "true"], 1, f"at most 99 bytes here, and this has {len(long_path)}"),
        ([file, results, "true"], 1, f"{file}: File exists"),
        ([results, results, "true"], 1, f"{results}: File exists"),
    ):
        ran = suite.run_argv([LISTEN, *argv])
        expect((ran.status, ran.out, ran.err.count("\n")), (status, "", 1), f"{argv}: {ran.err}")
        expect_in(ran.err, "asancol-listen: ", said)
    expect((sorted(os.listdir(folder)), text_of(file)), (["file", "results"], "mine\n"), "what is there")


def check_help(suite: Suite, folder: str) -> None:
    ran = suite.run_argv([LISTEN, "--help"])
    expect((ran.status, ran.err, "--connections" in ran.out), (0, "", True), ran.out)


def check_strangers(suite: Suite, folder: str) -> None:
    """Children that it did not start, and a log that takes nothing, do not end it; nobody's file has its last name."""
    results = f"{folder}/results"
    os.mkdir(results)
    line = f"sleep 0.1 & exec {LISTEN} {folder}/socket {results} {suite.asancol} check -"
    with open("/dev/full", "wb") as full:
        program = Started(["sh", "-c", line], env=suite.environment(), stderr=full)
    wait_until(lambda: os.path.exists(f"{folder}/socket"), "the socket")
    os.rename(results, f"{folder}/moved")
    for _ in range(2):
        suite.run_argv([suite.program, "sound"], ASANCOL_SOCKET=f"{folder}/socket")
    time.sleep(0.2)
    os.rename(f"{folder}/moved", results)
    suite.run_argv([suite.program, "sound"], ASANCOL_SOCKET=f"{folder}/socket")
    wait_until(lambda: [result_of(results, it).status for it in os.listdir(results)] == ["0"], "the result")
    os.remove(f"{folder}/socket")
    write_text(f"{folder}/socket", "another's")
    program.terminate()
    expect((program.wait(PATIENCE), os.path.exists(f"{folder}/socket")), (0, True), "status, and the file of another")


def check_closed(suite: Suite, folder: str) -> None:
    """It may be started with no descriptor open, and as often as somebody likes at once: one of them serves."""
    results = f"{folder}/results"
    os.mkdir(results)
    command = f"sh -c 'true >&2 && exec {suite.asancol} check -'"
    line = f"exec {LISTEN} {folder}/socket {results} {command} <&- >&- 2>&-"
    programs = [Started(["sh", "-c", line], env=suite.environment()) for _ in range(6)]
    wait_until(lambda: sum(it.poll() is None for it in programs) == 1, "the end of all but one")
    expect(sorted(it.poll() or 0 for it in programs), [0, 1, 1, 1, 1, 1], "statuses")
    suite.run_argv([suite.program, "past"], ASANCOL_SOCKET=f"{folder}/socket")
    for program in programs:
        program.terminate()
        program.wait(PATIENCE)
    found = [result_of(results, it) for it in os.listdir(results)]
    expect(([it.status for it in found], "reports 1" in found[0].text), (["1"], True), f"{found}")
    expect(os.listdir(folder), ["results"], "what is left")


def check_full(suite: Suite, folder: str) -> None:
    """A result that can't be written has status 4, and nothing else suffers."""
    command = ["prlimit", "--fsize=100", "--", suite.asancol]
    service = Service(suite, folder, command=command)
    many, one = service.record(suite.program, "past", "100"), service.record(suite.program, "sound")
    expect((service.of_process(many).status, len(service.of_process(many).text)), ("4", 100), "many reports")
    expect(service.of_process(one).status, "0", "the next")
    shutil.rmtree(service.folder)
    service.record(suite.program, "sound")
    expect_in(service.end(), "NOT CHECKED: No such file or directory")


def check_mode(suite: Suite, folder: str) -> None:
    """Who may connect is what the mode of the socket says: at first its user alone."""
    os.chmod(folder, 0o755)
    argv = ["setpriv", "--reuid=65534", "--regid=65534", "--clear-groups", "python3", "-c",
             f"import socket; socket.socket(socket.AF_UNIX).connect('{folder}/socket')"]
    for options, mode, refused in (((), 0o600, True), (("--mode", "666"), 0o666, False),
                                   (("--group", "nogroup", "--mode", "660"), 0o660, False)):
        service = Service(suite, folder, *options)
        expect(os.stat(service.socket).st_mode & 0o777, mode, "the mode")
        ran = suite.run_argv(argv)
        expect("PermissionError" in ran.err, refused, f"{options}: {ran.err}")
        service.end()
    expect([it.user for it in service.results()], [65534] * 2, "users")
    service = Service(suite, folder)
    another = ["setpriv", "--reuid=65534", "--regid=65534", "--clear-groups", LISTEN]
    no_group = "its group cannot be root: Operation not permitted"
    for argv, said in (([service.socket], "Permission denied"),
                        (["--group", "root", "/tmp/asancol-none"], no_group)):
        ran = suite.run_argv([*another, *argv, "/tmp", "true"])
        expect((ran.status, ran.err), (1, f"asancol-listen: {argv[-1]}: {said}\n"), "another user's")
    service.end()


def check_script(suite: Suite, folder: str) -> None:
    """The commands of the page serve a socket, record a program and show its lines."""
    os.symlink(suite.asancol, f"{folder}/asancol")
    write_text(f"{folder}/program", f"#!/bin/sh\nexec {suite.program} past\n", 0o755)
    path = f"{folder}:{os.path.dirname(LISTEN)}:{os.environ['PATH']}"
    ran = suite.run_argv(["sh", f"{EXAMPLES}/listen.sh"], folder, PATH=path)
    lines = r"results/[\d.]+-\d+-\d+\.1:p0 #3 store 1 at .*\nresults/\S+\.1:p0 end closed events 3 .* reports 1\n"
    expect((ran.status, re.fullmatch(lines, ran.out) is not None, ran.err), (0, True, ""), ran.out)


def check_page(suite: Suite, folder: str) -> None:
    """The page has the commands as they are, and how much systemd finds."""
    page = text_of(f"{TOP}/docs/SERVICE.md")
    for name in ("systemd.sh", "group.sh", "listen.sh"):
        commands = re.sub(r"^#.*\n", "", text_of(f"{EXAMPLES}/{name}"))
        expect_in(page, f"```sh\n{commands}```\n")
    expect_in(page, f"says {MAX_EXPOSED}, where")


def check_soak(suite: Suite, folder: str) -> None:
    """The soak itself, for some seconds."""
    ran = suite.run_argv([f"{TESTS}/soak.py", "--hours", "0.002", suite.asancol])
    expect((ran.status, ran.err), (0, ""), ran.out)
    expect_in(ran.out, "false 0\n", "\n0 failures\n")


def check_mode_of_serve(suite: Suite, folder: str) -> None:
    """To the socket of `asancol serve` connects whom the umask leaves the right to write."""
    os.chmod(folder, 0o755)
    line = f"import socket; socket.socket(socket.AF_UNIX).connect('{folder}/socket')"
    for mask, refused in ((0o022, True), (0o000, False)):
        argv = [suite.asancol, "serve", "--count", "1", "--ready", f"{folder}/ready", f"{folder}/socket"]
        program = Started(argv, stdout=subprocess.DEVNULL, umask=mask)
        wait_until(lambda: os.path.exists(f"{folder}/ready"), "the socket")
        ran = suite.run_argv(["setpriv", "--reuid=65534", "--regid=65534", "--clear-groups", "python3", "-c", line])
        expect("PermissionError" in ran.err, refused, ran.err)
        program.terminate()
        program.wait()
        os.remove(f"{folder}/socket")
        os.remove(f"{folder}/ready")


# The units.


def install_units(suite: Suite, prefix: str, root: str = "") -> str:
    """Installs the units and a copy of asancol, and returns the folder of the units."""
    os.makedirs(f"{root}{prefix}/bin")
    shutil.copy(suite.asancol, f"{root}{prefix}/bin")
    os.chmod(f"{root}{prefix}/bin/asancol", 0o755)
    call(["make", "-s", "-C", TOP, "install-units", f"PREFIX={prefix}", f"DESTDIR={root}"], check=True)
    return f"{root}{prefix}/lib/systemd/system"


def settings_of(path: str) -> Dict[str, List[str]]:
    """Returns what a unit says in all its sections, by name: a name may come again."""
    unit: Dict[str, List[str]] = {}
    for line in text_of(path).splitlines():
        if "=" in line and not line.startswith("#"):
            name, _, value = line.partition("=")
            unit.setdefault(name, []).append(value)
    return unit


def check_unit_command(suite: Suite, folder: str) -> None:
    """What asancol@.service starts serves a socket, by asancol-listen."""
    units = install_units(suite, folder)
    unit = settings_of(f"{units}/asancol@.service")
    name, _, value = unit["Environment"][0].partition("=")
    command = ["env", f"{name}={value}", *unit["ExecStart"][0].split()]
    service = Service(suite, folder, "--mode", settings_of(f"{units}/asancol.socket")["SocketMode"][0], command=command)
    numbers = [service.record(suite.program, word) for word in ("sound", "past")]
    expect([service.of_process(it).status for it in numbers], ["0", "1"], "statuses")
    service.end()


def check_units(suite: Suite, folder: str) -> None:
    """systemd takes the units, and sees little that they leave open."""
    units = install_units(suite, folder)
    names = sorted(f"{units}/{it}" for it in os.listdir(units))
    expect(len(names), 3, "units")
    ran = suite.run_argv(["systemd-analyze", "verify", "--man=no", *names])
    expect((ran.status, ran.out, ran.err), (0, "", ""), "verify")
    threshold = f"--threshold={MAX_EXPOSED * 10:.0f}"
    ran = suite.run_argv(["systemd-analyze", "security", "--offline=yes", "--no-pager", threshold,
                           f"{units}/asancol@.service"])
    if ran.status != 0:
        raise Failure(f"security: {ran.out[-300:]} {ran.err}")


def check_socket_activate(suite: Suite, folder: str) -> None:
    """systemd's own accepting program starts the command of the unit for each connection."""
    unit = settings_of(f"{install_units(suite, folder)}/asancol@.service")
    listen, results = f"{folder}/socket", f"{folder}/results"
    # Without the setting StandardOutput it would be the connection, too.
    command = ["sh", "-c", f"exec {unit['ExecStart'][0]} >> {results}"]
    argv = ["systemd-socket-activate", "--accept", "--inetd", f"--listen={listen}", *command]
    nothing = subprocess.DEVNULL
    program = Started(argv, env=suite.environment(), stdout=nothing, stderr=nothing)
    wait_until(lambda: os.path.exists(listen), "the socket")
    for word in ("sound", "past"):
        suite.run_argv([suite.program, word], ASANCOL_SOCKET=listen)

    def ends() -> List[str]:
        text = text_of(results) if os.path.exists(results) else ""
        return sorted(re.findall(r"^p0 end \S+ events \d+", text, re.M))

    try:
        wait_until(lambda: ends() == ["p0 end closed events 2", "p0 end closed events 3"], "both end lines")
    finally:
        program.terminate()
        program.wait(PATIENCE)


# What runs in a container that systemd has booted. Its folder has the programs, and takes what comes of it.
PREFIX = "/opt/asancol"
PROBE = f"""#!/bin/sh
cd {PREFIX}
export SYSTEMD_PAGER=cat
as_user='setpriv --reuid=65534 --regid=65534 --groups=100 env ASANCOL_SOCKET=/run/asancol.sock'
sh systemd.sh > first
$as_user ./program 2> refused
sh group.sh
$as_user ./program
for wait in 1 2 3 4 5 6 7 8 9 10; do
    journalctl --identifier asancol --output with-unit > lines
    test "$(grep -c ' end ' lines)" = 2 && break
    sleep 1
done
systemctl list-units --all --no-legend 'asancol@*' > left
systemctl poweroff --force --force
"""
CONTAINER = ["systemd-nspawn", "--quiet", "--directory=/", "--volatile=yes", "--register=no", "--keep-unit",
             "--private-network"]


def boot(folder: str, units: str) -> None:
    """Boots systemd with the units, and with one that runs the probe."""
    write_text(f"{units}/probe.service", f"[Service]\nType=oneshot\nExecStart={PREFIX}/probe\n")
    mounts = [f"--bind-ro={units}/{name}:/etc/systemd/system/{name}" for name in os.listdir(units)]
    argv = [*CONTAINER, f"--bind={folder}{PREFIX}:{PREFIX}", *mounts, "--boot", "systemd.firstboot=no",
             "systemd.wants=probe.service"]
    nothing = subprocess.DEVNULL
    call(argv, stdin=nothing, stdout=nothing, stderr=nothing, check=True, timeout=PATIENCE)


def check_systemd(suite: Suite, folder: str) -> None:
    """systemd itself starts a unit for each connection, and turns those away that may not connect."""
    units = install_units(suite, PREFIX, folder)
    top = f"{folder}{PREFIX}"
    shutil.copy(suite.program, f"{top}/programs")
    os.chmod(f"{top}/programs", 0o755)
    write_text(f"{top}/program", f"#!/bin/sh\nexec {PREFIX}/programs past\n", 0o755)
    for name in ("systemd.sh", "group.sh"):
        shutil.copy(f"{EXAMPLES}/{name}", top)
    write_text(f"{top}/probe", PROBE, 0o755)
    boot(folder, units)
    seen = {name: text_of(f"{top}/{name}") for name in ("refused", "lines", "left")}
    expect_in(seen["refused"], "nothing is recorded: /run/asancol.sock: Permission denied")
    line = r"^\w+ [\d-]+ [\d:]+ \w+ \w+ asancol@\d+-\d+-(\d+)\.service\[\d+\]: p0 end (\w+) .* reports (\d+)$"
    ends = re.findall(line, seen["lines"], re.M)
    expect(sorted(ends), [("0", "closed", "1"), ("65534", "closed", "1")], seen["lines"])
    expect(seen["left"], "", "units that are left")


# A filter of system calls, as asancol@.service has it.

ALLOW, REFUSE = 0x7FFF0000, 0x80000000  # 0x80000000 ends the process


def calls_of_sets(line: str) -> List[str]:
    """Returns the system calls of a line of SystemCallFilter, with those of the sets in it."""
    calls: List[str] = []
    waiting = line.lstrip("~").split()
    while waiting:
        word = waiting.pop()
        if not word.startswith("@"):
            calls.append(word)
            continue
        shown = call(["systemd-analyze", "syscall-filter", word], stdout=subprocess.PIPE, check=True)
        lines = [it.strip() for it in shown.stdout.decode().splitlines()[1:]]
        waiting += [it for it in lines if it and not it.startswith("#")]
    return calls


def numbers_of_calls() -> Dict[str, int]:
    text = call(["cc", "-E", "-dM", "-include", "asm/unistd_64.h", "-x", "c", os.devnull],
                stdout=subprocess.PIPE, text=True, check=True).stdout
    return {name: int(number) for name, number in re.findall(r"#define __NR_(\w+) (\d+)$", text, re.M)}


def allowed_calls(lines: List[str]) -> List[int]:
    """The rest of the first line once the others, which begin with ~, are taken away."""
    allowed = set(calls_of_sets(lines[0]))
    for line in lines[1:]:
        allowed -= set(calls_of_sets(line))
    numbers = numbers_of_calls()
    return sorted(numbers[it] for it in allowed if it in numbers)


def filter_of(allowed: List[int]) -> bytes:
    """The program of a filter: a load of the number, and for each call that is allowed a test and an answer."""
    code = struct.pack("=HBBI", 0x20, 0, 0, 0)
    for number in allowed:
        code += struct.pack("=HBBI", 0x15, 0, 1, number) + struct.pack("=HBBI", 0x06, 0, 0, ALLOW)
    return code + struct.pack("=HBBI", 0x06, 0, 0, REFUSE)


def apply_filter(code: bytes) -> Callable[[], None]:
    """What a child does before it runs a program: from there on the filter holds."""
    library = ctypes.CDLL(None, use_errno=True)

    def apply() -> None:
        no_new_privileges, set_filter, by_filter = 38, 22, 2
        room = ctypes.create_string_buffer(code, len(code))
        header = struct.pack("=HxxxxxxQ", len(code) // 8, ctypes.addressof(room))
        resource.setrlimit(resource.RLIMIT_CORE, (0, 0))
        if library.prctl(no_new_privileges, 1, 0, 0, 0) or library.prctl(set_filter, by_filter, header, 0, 0):
            raise OSError(ctypes.get_errno(), "prctl")

    return apply


def check_filter(suite: Suite, folder: str) -> None:
    """Under the filter of system calls all goes as without, and what it does not have ends the process."""
    unit = settings_of(f"{install_units(suite, folder)}/asancol@.service")
    apply = apply_filter(filter_of(allowed_calls(unit["SystemCallFilter"])))
    trace = f"{folder}/past.trace"
    suite.run_argv([suite.program, "past", "3000"], ASANCOL_TRACE=trace)
    for name in (trace, f"{TOP}/examples/one_byte_past_the_end.trace", "/dev/null"):
        ran = {}
        for way, before in (("with", apply), ("without", None)):
            with open(name, "rb") as given:
                argv = unit["ExecStart"][0].split()
                done = call(argv, stdin=given, capture_output=True, check=False, preexec_fn=before)
            ran[way] = (done.returncode, done.stdout, done.stderr)
        expect(ran["with"], ran["without"], name)
    mount = ["mount", "-t", "tmpfs", "none", folder]
    refused = call(mount, stderr=subprocess.DEVNULL, check=False, preexec_fn=apply)
    expect(refused.returncode, -signal.SIGSYS, "a call that is not in the filter")


def tests(suite: Suite) -> None:
    suite.test("service: results", check_results)
    suite.test("service: killed", check_killed)
    suite.test("service: children", check_children)
    suite.test("service: threads", check_threads)
    suite.test("service: silent", check_silent)
    suite.test("service: end", check_end)
    suite.test("service: another server", check_other_server)
    suite.test("service: refused", check_refused)
    suite.test("service: help", check_help)
    suite.test("service: strangers", check_strangers)
    suite.test("service: closed", check_closed)
    suite.test("service: full", check_full)
    suite.test("service: soak", check_soak)
    suite.test("service: script", check_script)
    suite.test("service: page", check_page)
    suite.test("service: command of the unit", check_unit_command)
    if os.geteuid() == 0:
        suite.test("service: mode", check_mode)
        suite.test("service: mode of serve", check_mode_of_serve)
    else:
        leave_out("service: mode: root alone can be another user")
    for program, name, check in (("systemd-analyze", "units", check_units), ("systemd-analyze", "filter", check_filter),
                                 ("systemd-socket-activate", "socket-activate", check_socket_activate)):
        if shutil.which(program):
            suite.test(f"service: {name}", check)
        else:
            leave_out(f"service: {name}: {program} is not there")
    if shutil.which("systemd-nspawn") and suite.run_argv([*CONTAINER, "/usr/bin/true"]).status == 0:
        suite.test("service: systemd", check_systemd)
    else:
        leave_out("service: systemd: systemd-nspawn is not there, or has no container")
