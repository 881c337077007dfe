"""Tests of what a hub gets: the streams of all processes, and the memory beside each with who it is, how it ended,
its modules, and its faults with the block or the variable that is nearest."""

import array
import errno
import fcntl
import glob
import itertools
import os
import re
import resource
import select
import shutil
import signal
import socket
import subprocess
import threading
import time
import weakref
from typing import Dict, List, Optional, Sequence, Tuple

from lives import lives_of
from support import (
    TESTS, Compiler, Failure, Suite, Trace, environment, expect, leave_out, limited, placed, reports, run, side_of,
    write,
)
from asancol_report.side import MAX_STACK_WORDS, STACKS_AT, WORD
from testing import LeftOut, wait_until
from testing.programs import NO_SETTINGS, PATIENCE, Started, accept, call, join
from testing.side import EXEC, EXIT, GLOBAL, LOST, NO_ENDING, NO_VARIABLE, OF_STACK, SIGNAL, Calls, Fault, Side

# No call becomes a jump, so each has its place.
FLAGS = ("-w", "-pthread", "-fno-optimize-sibling-calls")
F_ADD_SEALS, F_GET_SEALS, F_SEAL_SHRINK = 1033, 1034, 2
# What comes first of a process that asks for a side memory, before the number of its error.
ASKS = b"\0"
# A name that is free again may still be held by a child that another test has just forked.
NUMBERS = itertools.count()
ROOM = STACKS_AT + MAX_STACK_WORDS * WORD.size
FD_SETSIZE = 1024
# Room for the memory alone. The system closes the files of the program that come with it: CMSG_SPACE has room for one.
ONE_DESCRIPTOR = socket.CMSG_LEN(4)


class Peer:
    """A process that has connected."""

    def __init__(self, connection: socket.socket, gives: bool) -> None:
        self.connection, self.gives, self.asked = connection, gives, 0
        self.data = bytearray()
        self.memory: Optional[int] = None
        self.reader = threading.Thread(target=self.read, daemon=True)
        self.reader.start()

    def answer(self, text: bytes) -> None:
        """Answers a process that could not make its memory."""
        self.asked = text[1]
        memory = os.memfd_create("given", os.MFD_ALLOW_SEALING)
        os.ftruncate(memory, ROOM)
        fcntl.fcntl(memory, F_ADD_SEALS, F_SEAL_SHRINK)
        rights = (socket.SOL_SOCKET, socket.SCM_RIGHTS, array.array("i", [memory]))
        self.connection.sendmsg([b"\0"], [rights] if self.gives else [])
        os.close(memory)

    def read(self) -> None:
        first, ancillary, _, _ = self.connection.recvmsg(8, ONE_DESCRIPTOR)
        if first[:1] == ASKS:
            self.answer(first)
            first, ancillary, _, _ = self.connection.recvmsg(8, ONE_DESCRIPTOR)
        self.data += first
        for level, kind, content in ancillary:
            if (level, kind) == (socket.SOL_SOCKET, socket.SCM_RIGHTS):
                descriptor = array.array("i", content)[0]
                self.seals = fcntl.fcntl(descriptor, F_GET_SEALS)
                weakref.finalize(self, os.close, descriptor)
                self.memory = descriptor
        while more := self.connection.recv(1 << 16):
            self.data += more
        self.connection.close()

    def side(self) -> Side:
        if self.memory is None:
            raise Failure("no side memory came with the header")
        return Side(os.dup(self.memory))

    def trace(self) -> Trace:
        return Trace(data=self.data)


class Hub:
    """Accepts processes under a path, under the abstract name of the same text, or under both. It stops at the end of
    its `with`, or once it is closed."""

    def __init__(self, path: str, has_path: bool = True, has_abstract: bool = True, gives: bool = True) -> None:
        self.path, self.gives = path, gives
        self.peers: List[Peer] = []
        self.is_stopping = False
        self.listening = []
        for name in [path] * has_path + ["\0" + path] * has_abstract:
            listener = socket.socket(socket.AF_UNIX)
            listener.bind(name)
            listener.listen(100)
            self.listening.append(listener)
        self.accepter = threading.Thread(target=self.accept, daemon=True)
        self.accepter.start()

    def __enter__(self) -> "Hub":
        return self

    def __exit__(self, *_: object) -> None:
        self.stop()

    def accept(self) -> None:
        """Until it is to stop and nobody waits. Tests may have so many files open that select takes none of these."""
        looking = select.poll()
        for listener in self.listening:
            looking.register(listener, select.POLLIN)
        by_number = {it.fileno(): it for it in self.listening}
        while True:
            is_last = self.is_stopping
            ready = looking.poll(10)
            for number, _ in ready:
                self.peers.append(Peer(accept(by_number[number]), self.gives))
            if is_last and not ready:
                return

    def stop(self) -> None:
        self.is_stopping = True
        join(self.accepter, "the hub")
        for listener in self.listening:
            listener.close()

    def close(self) -> List[Peer]:
        """Waits for the ends of all that have connected, in the order in which they have."""
        self.stop()
        for peer in self.peers:
            join(peer.reader, "the end of a process")
        return self.peers

    def wait_for_memory(self) -> Peer:
        """Returns the first process once its memory is there."""
        wait_until(lambda: bool(self.peers) and self.peers[0].memory is not None, "a process")
        return self.peers[0]


def run_under(folder: str, argv: List[str], status: int = 0, gives: bool = True,
              **settings: str) -> Tuple[List[Peer], bytes]:
    """Runs a command under a hub, which gives a memory to who asks, or none. The connections, and the messages."""
    with Hub(f"{folder}/hub{next(NUMBERS)}", gives=gives) as hub:
        ran = run(argv, folder, ASANCOL_HUB=hub.path, **settings)
        expect(ran.returncode, status, f"status of {argv}: {ran.stderr.decode()}")
        return hub.close(), ran.stderr


def one(folder: str, argv: List[str], status: int = 0, **settings: str) -> Peer:
    peers, said = run_under(folder, argv, status, True, **settings)
    expect((len(peers), said), (1, b""), f"processes of {argv}, and what was said")
    return peers[0]


def check(suite: Suite, folder: str, peer: Peer) -> Tuple[int, List[str], str]:
    """What the checker makes of a stream: its status, the reports, and the end."""
    with open(f"{folder}/peer.trace", "wb") as file:
        file.write(peer.data)
    return reports(suite.asancol, f"{folder}/peer.trace")


def faults_of(peer: Peer) -> List[Fault]:
    """The faults of all events that have one, one after the other."""
    side = peer.side()
    return [it for it in map(side.fault_at, range(1, len(peer.trace().events) + 1)) if it]


def lines_of(side: Side, fault: Fault) -> List[str]:
    """The functions in which the access was made, and its block allocated and freed."""
    return [name for name, _ in side.lines([it[0] for it in (fault.place, fault.allocated, fault.freed) if it])]


# Faults.

# By the test: for each event with a fault how far its address is from the start of the block, the size of the block,
# and the functions.
BLOCKS: Dict[str, List[Tuple[int, int, List[str]]]] = {
    "before": [(-3, 24, ["put", "make"])],
    "behind": [(25, 24, ["put", "make"])],
    "inside_freed": [(10, 24, ["put", "make", "give_back"])],
    "twice": [(0, 24, ["give_back", "make", "give_back"])],
    "large": [(1 << 20, 1 << 20, ["put", "make"]), (-20, 1 << 20, ["put", "make"])],
    "inside_free": [(16, 24, ["give_back", "make"])],
    "loops": [(8 + i % 8, 8, ["put", "make"]) for i in range(100)],
}


def check_blocks(suite: Suite, folder: str, program: str) -> None:
    for name, wanted in BLOCKS.items():
        peer = one(folder, [program, name])
        side, trace = peer.side(), peer.trace()
        found = []
        for number, (_, address, _) in enumerate(trace.events, 1):
            fault = side.fault_at(number)
            if fault:
                expect((fault.variable, fault.name), (NO_VARIABLE, "malloc"), name)
                found.append((address - fault.block, fault.block_size, lines_of(side, fault)))
        expect(found, wanted, name)
        expect(side.fault_count, len({it.place for it in faults_of(peer)}), f"faults of {name}")
        expect(len(check(suite, folder, peer)[1]), len(wanted), f"reports of {name}")


# By the test: the kind, the name and the size of the variable, how far its address is from its start, and whether its
# declaration is known.
VARIABLES: Dict[str, List[Tuple[int, str, int, int]]] = {
    "on_stack": [(OF_STACK, "first", 10, 10), (OF_STACK, "second", 20, 21), (OF_STACK, "second", 20, -3)],
    "after_scope": [(OF_STACK, "inner", 16, 3)],
    "globals": [(GLOBAL, "table", 20, 20), (GLOBAL, "letters", 3, 3), (GLOBAL, "middle", 4, -4)],
    "frees_variables": [(OF_STACK, "local", 32, 0), (GLOBAL, "table", 20, 0)],
}


def check_variables(suite: Suite, folder: str, program: str) -> None:
    source = f"{TESTS}/hub.c"
    with open(source, encoding="utf-8") as file:
        text = file.read().splitlines()
    for name, variables in VARIABLES.items():
        peer = one(folder, [program, name])
        side, trace = peer.side(), peer.trace()
        found = []
        for number, (_, address, _) in enumerate(trace.events, 1):
            fault = side.fault_at(number)
            if not fault:
                continue
            declared, _, where = fault.name.partition(" ")
            found.append((fault.variable, declared, fault.block_size, address - fault.block))
            line = int(where.split(":")[-1]) if where else fault.line
            expect(declared.split(":")[-1] in text[line - 1], True, f"{name}: {declared} at {where} {fault.line}")
            expect(where.startswith(f"{source}:"), fault.variable == GLOBAL, where)
        expect(found, variables, name)


CPP_BLOCKS = {"past_new": (16, ["past_new", "make"]), "after_delete": (4, ["after_delete", "make", "give_back"])}


def matched(text: str, pattern: str) -> "re.Match[str]":
    """Returns the first match in a text, which has to be there."""
    match = re.search(pattern, text)
    if match is None:
        raise Failure(f"no {pattern} in {text}")
    return match


def check_cpp(suite: Suite, folder: str, compiler: Compiler, level: str) -> None:
    compiler.cpp(folder, [f"{TESTS}/hub.cpp"], f"{folder}/program", level, *FLAGS)
    for name, (offset, functions) in CPP_BLOCKS.items():
        peer = one(folder, ["./program", name])
        side, events = peer.side(), peer.trace().events
        ((address, fault),) = [(at, it) for (_, at, _), it in zip(events,
                                                                  map(side.fault_at, range(1, len(events) + 1))) if it]
        names = [matched(it, "|".join(functions))[0] for it in lines_of(side, fault)[1:]]
        expect((address - fault.block, fault.block_size, names), (offset, 16, functions[1:]), name)
    of_namespace = faults_of(one(folder, ["./program", "of_namespace"]))
    names = [matched(it.name.split(" ")[0], r"([a-z]+)E?$")[1] for it in of_namespace]
    expect(names, ["numbers", "kept"], "of a namespace, and static")
    (fault,) = faults_of(one(folder, ["./program", "on_stack"]))
    expect((fault.variable, fault.name, fault.block_size), (OF_STACK, "array", 16), "on the stack")


def fault_tests(suite: Suite, compiler: Compiler) -> None:
    source = [f"{TESTS}/hub.c"]
    for level in ("-O0", "-O2"):
        program = suite.built(compiler.c, source, f"hub-{compiler}{level}", level, *FLAGS)
        suite.test(f"{compiler} {level} hub blocks", check_blocks, program)
        if level == "-O0":
            suite.test(f"{compiler} hub variables", check_variables, program)
        if compiler.cxx:
            suite.test(f"{compiler} {level} hub c++", check_cpp, compiler, level)
            suite.test(f"{compiler} {level} hub stacks of c++", check_cpp_stacks, compiler, level)
    program = suite.built(compiler.c, source, f"hub-{compiler}-static", "-O0", *FLAGS, "-static")
    suite.test(f"{compiler} hub static blocks", check_blocks, program)
    program = suite.built(compiler.c, source, f"hub-{compiler}-every", "-O0", *FLAGS, ASANCOL_ALL="1")
    suite.test(f"{compiler} hub with each access", check_blocks, program)


# Processes.


def check_head(suite: Suite, folder: str, program: str) -> None:
    """Who the process is."""
    before = time.time()
    peer = one(folder, [program, "behind", "", "some word", "w" * 5000], ASANCOL_WHERE="0")
    side = peer.side()
    expect((side.bytes_at(0, 8), peer.seals & 7), (b"ASWH\5\0\0\0", 7), "its header and its seals")
    expect(side.bytes_at(72, 4000).startswith(f"{program}\0behind\0\0some word\0www".encode()), True, "its words")
    expect(side.bytes_at(4069, 3), b"w\0\0", "a word that was cut")
    expect(before - 1 < side.started / 1e9 < time.time() + 1, True, "when it was started")
    expect((side.parent, side.process > 0), (os.getpid(), True), "its numbers")
    events = len(peer.trace().events)
    seen = (side.ending, side.signal, side.events, side.left_out, side.has_checks, side.is_at_limit)
    expect(seen, (EXIT, 0, events, 0, 1, 0), "how it ended")
    expect(check(suite, folder, peer)[2].split()[0], "closed", "its fate")


# The status, and what the side memory says: the ending, the signal, and the fate of the stream.
ENDINGS = {
    "ends_by__exit": (7, EXIT, 0, "closed"),
    "terminates": (-15, SIGNAL, 15, "no-close"),
    "aborts": (-6, SIGNAL, 6, "no-close"),
    "segfaults": (-11, SIGNAL, 11, "no-close"),
    "execs_true": (0, EXEC, 0, "no-close"),
    "execs_in_vain": (0, EXIT, 0, "closed"),
    "is_killed_after_fault": (-9, NO_ENDING, 0, "no-close"),
}


def check_endings(suite: Suite, folder: str, program: str) -> None:
    for name, (status, ending, number, fate) in ENDINGS.items():
        peer = one(folder, [program, name], status)
        side = peer.side()
        expect((side.ending, side.signal), (ending, number), name)
        _, texts, end = check(suite, folder, peer)
        expect((len(texts), end.split(" events ")[0].split()[0]), (2 if name == "execs_in_vain" else 1, fate), name)
        if ending != NO_ENDING:
            expect(side.events, len(peer.trace().events), f"events of {name}")
    side = one(folder, [program, "behind", "at_exit"], -6).side()
    expect((side.ending, side.signal), (SIGNAL, 6), "a signal in an exit handler")


def check_forks(suite: Suite, folder: str, program: str) -> None:
    """A child connects by itself, begins with its live blocks, and knows where its parent allocated them."""
    peers, said = run_under(folder, [program, "forks"])
    expect((len(peers), said), (2, b""), "processes")
    parent, child = (peer.side() for peer in peers)
    expect((child.parent, child.ending, parent.ending), (parent.process, EXIT, EXIT), "parent and child")
    expect((parent.fault_count, child.fault_count), (0, 2), "faults")
    behind, after = faults_of(peers[1])
    expect(lines_of(child, behind), ["put", "make"], "past its parent's block")
    expect(lines_of(child, after), ["put", "make", "give_back"], "after its free")
    expect([check(suite, folder, peer)[2].split()[0] for peer in peers], ["closed"] * 2, "fates")
    peers, _ = run_under(folder, [program, "forks_after_fault"])
    expect([len(faults_of(peer)) for peer in peers], [2, 1], "faults before and after a fork")
    expect(peers[1].side().fault_count, 1, "the list of the child")


def check_closing_children(suite: Suite, folder: str, program: str) -> None:
    """A child that closes all descriptors before it runs another program is complete, and so is its parent."""
    peers, said = run_under(folder, [program, "forks_and_closes"])
    expect(([peer.side().ending for peer in peers], said), ([EXIT, EXEC], b""), "endings")
    expect([peer.side().events for peer in peers], [len(peer.trace().events) for peer in peers], "events")
    peer = one(folder, [program, "vforks_and_closes"])
    expect((peer.side().ending, peer.trace().is_closed), (EXIT, True), "with a child of vfork")
    expect(len(faults_of(peer)), 6, "faults of both")


def check_forks_in_handlers(suite: Suite, folder: str, lives: str) -> None:
    """A child that a handler has made in the middle of an allocation is not recorded: the hub knows that it is lost."""
    peers, said = run_under(folder, [lives, "forks_in_handlers"])
    lost = [peer for peer in peers if peer.side().ending == LOST]
    lines = said.decode().splitlines()
    expect((len(peers), len(lines)), (51, len(lost)), said)
    expect([line for line in lines if "it interrupted the allocator" not in line], [], "lines")
    expect([peer.trace().is_closed for peer in lost], [False] * len(lost), "their closes")
    for peer in peers:
        if peer not in lost:
            expect((peer.side().ending, len(faults_of(peer))), (EXIT, 1), "one that is recorded")


def check_exec(suite: Suite, folder: str, program: str) -> None:
    """A program that runs another one has ended in that, and the other one connects."""
    peers, said = run_under(folder, [program, "execs"])
    expect((len(peers), said), (2, b""), "processes")
    first, second = (peer.side() for peer in peers)
    expect((first.ending, second.ending, first.process), (EXEC, EXIT, second.process), "endings")
    expect(second.argv()[:2], ["hub", "behind"], "the words of the second")
    expect([len(check(suite, folder, peer)[1]) for peer in peers], [1, 1], "reports")


def check_limit(suite: Suite, folder: str, program: str) -> None:
    """Past the limit events are counted and not recorded, and the recorder leaves it to the hub to say so."""
    wanted = {"many": (0, EXIT), "execs_at_limit": (0, EXEC), "execs_in_vain_at_limit": (-9, NO_ENDING)}
    for name, (status, ending) in wanted.items():
        peer = one(folder, [program, name], status, **limited(100))
        side = peer.side()
        expect((side.ending, side.is_at_limit, side.events), (ending, 1, 100), name)
        # The program allocates and frees 200 times, and its first block comes with poison round it.
        expect(side.left_out, 1 + 400 - 100, f"left out of {name}")
        expect(peer.trace().is_closed, False, "a close")


def check_no_checks(suite: Suite, folder: str, compiler: Compiler) -> None:
    """A program of which nothing was compiled for it has no checks, until it loads a library that has some."""
    loader = "#include <dlfcn.h>\nint main(int n, char **w) { return n > 1 && !dlopen(w[1], RTLD_NOW); }\n"
    write(folder, main_c=loader)
    compiler.c(folder, ["main.c"], f"{folder}/main.o", "-c", native=True)
    compiler.c(folder, ["main.o"], f"{folder}/program", "-ldl")
    shared = ["-fPIC", "-shared"]
    compiler.c(folder, [f"{TESTS}/hub_library.c"], f"{folder}/libhub.so", *shared)
    peers, said = run_under(folder, ["./program"])
    expect((peers[0].side().has_checks, said), (0, b""), "without one: the hub says it")
    peers, said = run_under(folder, ["./program", "./libhub.so"])
    expect((peers[0].side().has_checks, peers[0].trace().is_closed, said), (1, True, b""), "with a library")
    # One that its own compiler has linked calls the program.
    compiler.c(folder, [f"{TESTS}/hub_library.c"], f"{folder}/library.o", "-c", "-fPIC")
    compiler.c(folder, ["library.o"], f"{folder}/libhub.so", *shared, native=True)
    peers, said = run_under(folder, ["./program", "./libhub.so"])
    expect((peers[0].side().has_checks, said), (1, b""), "with a library of another linker")


def build_id(path: str) -> str:
    said = call(["readelf", "-n", path], stdout=subprocess.PIPE, check=True).stdout.decode()
    return matched(said, r"Build ID: (\w+)")[1]


def check_modules(suite: Suite, folder: str, program: str, compiler: Compiler) -> None:
    """Build ids of modules loaded at the start and later; and the globals of a library, until it is closed."""
    flags = ["-fPIC", "-shared", "-Wl,--build-id", "-Wl,-z,defs"]
    compiler.c(folder, [f"{TESTS}/hub_library.c"], f"{folder}/libhub.so", "-w", *flags)
    shutil.copy(program, f"{folder}/program")
    peer = one(folder, ["./program", "loads"])
    builds = peer.side().builds()
    for name in ("program", "libhub.so"):
        expect(builds.get(f"{folder}/{name}"), build_id(f"{folder}/{name}"), name)
    expect(any("libc" in name for name in builds), True, f"the C library's: {builds}")
    first, second = faults_of(peer)
    expect((first.variable, first.name.split()[0], first.block_size), (GLOBAL, "of_the_library", 16), "its global")
    expect(lines_of(peer.side(), second), ["of_library"] * 2, "its block")
    # Of one that was closed the lines are kept, unless another one lies there now.
    peer = one(folder, ["./program", "closes_library"])
    side = peer.side()
    if f"{folder}/libhub.so" in [it.path for it in side.maps]:
        expect(side.builds().get(f"{folder}/libhub.so"), build_id(f"{folder}/libhub.so"), "of the closed library")
        expect(lines_of(side, faults_of(peer)[1]), ["of_library"] * 2, "places in the closed library")
    else:
        leave_out("another library took the place of the one that was closed")
    names = [fault.name.split()[0] for fault in faults_of(peer) if fault.variable == GLOBAL]
    expect(names, ["of_the_library", "table", "letters", "middle"], "globals after the library was closed")


# Ways to the hub.


def check_names(suite: Suite, folder: str, program: str) -> None:
    """By the path alone, and by the abstract name alone; and a trace wins over both."""
    for has_path in (True, False):
        with Hub(f"{folder}/hub{has_path}", has_path, not has_path) as hub:
            ran = run([program, "behind"], folder, ASANCOL_HUB=hub.path)
            expect((ran.returncode, ran.stderr), (0, b""), "the program")
            expect([len(faults_of(peer)) for peer in hub.close()], [1], f"path {has_path}")
    with Hub(f"{folder}/hub") as hub:
        ran = run([program, "behind"], folder, ASANCOL_HUB=hub.path, ASANCOL_TRACE="t.trace")
        expect((ran.stderr, hub.close(), os.path.exists(f"{folder}/t.trace")), (b"", [], True), "with a trace")


def files_open() -> List[str]:
    paths = []
    for number in os.listdir("/proc/self/fd"):
        try:
            paths.append(os.readlink(f"/proc/self/fd/{number}"))
        except OSError:  # another test has closed it
            continue
    return paths


def check_many_files(suite: Suite, folder: str, program: str) -> None:
    """Other tests may have more files open than `select` has room for."""
    most, _ = resource.getrlimit(resource.RLIMIT_NOFILE)
    if most < 2 * FD_SETSIZE:
        raise LeftOut(f"no more than {most} files may be open")
    held = [os.open(os.devnull, os.O_RDONLY | os.O_CLOEXEC)]
    try:
        while held[-1] < FD_SETSIZE:
            held.append(os.dup(held[0]))
        os.link(program, f"{folder}/program")  # a program just written can't be run while another test forks
        peer = one(folder, ["./program", "behind"])
        expect(len(faults_of(peer)), 1, "faults")
        expect([it for it in files_open() if it.startswith(folder)], [], "what was sent and is still open")
    finally:
        for each in held:
            os.close(each)


def check_root(suite: Suite, folder: str, program: str) -> None:
    """A child after a change of root has neither the path nor /proc."""
    if os.getuid() != 0:
        return
    os.mkdir(f"{folder}/empty")
    peers, said = run_under(folder, [program, "changes_root"])
    expect((len(peers), said), (2, b""), "processes")
    side = peers[1].side()
    expect((side.ending, side.argv()[0] != ""), (EXIT, True), "the child")
    expect([fault.block_size for fault in faults_of(peers[1])], [24], "its fault")


def check_fallback(suite: Suite, folder: str, program: str) -> None:
    """If there is no hub, the traces go to files beside its socket, and a line says so for each process."""
    os.mkdir(f"{folder}/10%p")
    ran = run([program, "forks"], folder, ASANCOL_HUB=f"{folder}/10%p/hub")
    said = ran.stderr.decode().splitlines()
    expect((ran.returncode, len(said)), (0, 2), said)
    expect(all("the hub can't be reached, so the trace goes to a file" in line for line in said), True, said)
    names = sorted(os.listdir(f"{folder}/10%p"))
    expect([re.sub(r"^\d+", "N", name) for name in names], ["N.trace", "N.trace.where"] * 2, "files")
    found = [placed(suite.asancol, f"{folder}/10%p/{name}")[0] for name in names[::2]]
    expect(sorted(len(it) for it in found), [0, 2], "reports")
    for name in names[::2]:
        side = side_of(f"{folder}/10%p/{name}")
        expect((side.process, side.ending), (int(name.split(".")[0]), EXIT), name)
    ran = run([program, "behind"], folder, ASANCOL_HUB=f"{folder}/none/hub")
    expect((ran.returncode, len(ran.stderr.splitlines())), (0, 2), ran.stderr)


def check_stacks(suite: Suite, folder: str, program: str) -> None:
    """Each place has its callers, also through wrappers of malloc and the C library."""
    side = one(folder, [program, "calls"]).side()
    places = [(fault.place, fault.allocated) for fault in side.faults()]
    found = [[[function for function, _ in side.lines(it[:-1])] for it in pair] for pair in places]
    wanted = [
        [["put", "inner", "outer", "calls", "main"], ["make", "inner", "outer", "calls", "main"]],
        [["put", "inner", "calls", "main"], ["make", "inner", "calls", "main"]],
        [["put", "inner"] + ["deep"] * 29, ["make", "inner"] + ["deep"] * 29],
        [["put", "calls", "main"], ["calls", "main"]],
    ]
    expect(found, wanted, "stacks")


def own_functions(side: Side, calls: Calls, program: str) -> List[str]:
    """The functions of the program's own that a stack has: those with a line in its source."""
    places = [place for place in calls if side.path(place) == program]
    return [function for function, line in side.lines(places) if line.startswith("hub.c")]


# By the test: the functions of the program in the stack of each access, and in that of the malloc of its block.
THROUGH_LIBRARIES: Dict[str, List[Tuple[List[str], List[str]]]] = {
    "sorts": [(["put", "compare", "sorts", "main"], ["make", "sorts", "main"])],
    "makes_text": [(["put", "makes_text", "main"], ["make_text", "makes_text", "main"])],
    "opens_stream": [(["put", "opens_stream", "main"], ["open_stream", "opens_stream", "main"])],
    "handles": [(["put", "on_signal", "raise_signal", "handles", "main"], ["make", "handles", "main"])],
    "handles_on_other_stack": [(["put", "on_signal", "raise_signal", "handles_on_other_stack", "main"],
                                ["make", "handles_on_other_stack", "main"])],
    "coroutine_of_program": [(["put", "run_coroutine"], ["make", "run_coroutine"])],
    "coroutine_in_block": [(["put", "run_coroutine"], ["make", "run_coroutine"])],
    "coroutine_in_mapping": [(["put", "run_coroutine"], ["make", "run_coroutine"])],
    "uses_most_of_stack": [(["put"] + ["go_down"] * 31, ["make"] + ["go_down"] * 31)],
}


def check_through_libraries(suite: Suite, folder: str, program: str, names: Sequence[str]) -> None:
    """Code without frame pointers, handlers, and stacks that are not the thread's or almost used up."""
    for name in names:
        wanted = THROUGH_LIBRARIES[name]
        side = one(folder, [program, name]).side()
        found = [tuple(own_functions(side, it, program) for it in (fault.place, fault.allocated))
                 for fault in side.faults()]
        expect(found, wanted, name)


# By the test: what the names of the functions of the malloc's stack have in them.
CPP_STACKS = {
    "text": ["make_text", "uses_text", "main"],
    "words": ["make_words", "uses_words", "main"],
    "numbers": ["make_numbers", "uses_numbers", "main"],
}


def check_cpp_stacks(suite: Suite, folder: str, compiler: Compiler, level: str) -> None:
    """What the library of C++ allocates for a string, a stream and a vector has the functions that use them."""
    compiler.cpp(folder, [f"{TESTS}/hub.cpp"], f"{folder}/program", level, "-fno-inline", *FLAGS)
    for name, wanted in CPP_STACKS.items():
        side = one(folder, ["./program", name]).side()
        (fault,) = side.faults()
        functions = own_functions(side, fault.allocated, f"{folder}/program")
        found = [word for it in functions for word in wanted if word in it]
        expect(found, wanted, f"{name}: {functions}")


def check_stacks_of_handlers(suite: Suite, folder: str, program: str) -> None:
    """A handler that interrupts anything: almost each stack leads from there to main. Not that out of the loader, where
    it looks up a function for its first call."""
    side = one(folder, [program, "handlers"]).side()
    stacks = [own_functions(side, fault.place, program) for fault in side.faults()]
    ticks = [it for it in stacks if it[:2] == ["put", "on_tick"]]
    whole = [it for it in ticks if it[-2:] == ["handlers", "main"]]
    expect(len(whole) > 0 and len(whole) >= 0.9 * len(ticks), True, f"{len(whole)} of {len(ticks)}: {ticks}")


# The status, the address that could not be accessed, how, and the functions.
LAST: Dict[str, Tuple[int, Optional[int], str, List[str]]] = {
    "segfaults": (-11, 16, "store", ["segfaults", "main"]),
    "segfaults_inside": (-11, 16, "load", ["segfaults_inside", "main"]),
    "calls_nothing": (-11, 16, "jump", ["calls_nothing", "main"]),
    "asserts": (-6, None, "", ["asserts", "main"]),
    "aborts": (-6, None, "", ["aborts", "main"]),
}


def check_last(suite: Suite, folder: str, program: str) -> None:
    """Where a signal has met a process, also on a stack that is used up."""
    for name, (status, address, access, functions) in LAST.items():
        side = run_under(folder, [program, name], status)[0][0].side()
        last = side.last()
        expect((last.address, last.access, last.is_stack_used_up), (address, access, False), name)
        expect(own_functions(side, last.calls, program), functions, f"functions of {name}")
    for name in ("uses_up_stack", "uses_up_second", "uses_up_small", "uses_up_own"):
        side = one(folder, [program, name], -11).side()
        last = side.last()
        functions = [it for it, _ in side.lines(last.calls)]
        expect((functions[:10], last.is_stack_used_up), (["uses_up"] * 10, True), name)
    ran = run([program, "segfaults"], folder, ASANCOL_TRACE="t.trace", ASANCOL_WHERE="1")
    side = side_of(f"{folder}/t.trace")
    last = side.last()
    expect((ran.returncode, last.address, len(last.calls)), (-11, 16, 3), "in a file")
    expect(one(folder, [program, "terminates"], -15).side().last().address, None, "a signal of another process")


def check_handlers_of_threads(suite: Suite, folder: str, program: str) -> None:
    """A thread has a stack for handlers, unless it gives itself another one. The next thread has nothing of it."""
    for name, status in (("handles_on_given", 7), ("handles_on_own", 8), ("jumps_in_threads", 0)):
        for settings in (NO_SETTINGS, {"ASANCOL_TRACE": "t.trace"}):
            if not settings and name == "handles_on_given":
                continue
            ran = run([program, name], folder, **settings)
            expect((ran.returncode, ran.stderr), (status, b""), f"{name} {settings}")
        _, texts, end = reports(suite.asancol, f"{folder}/t.trace")
        expect((texts, end.split()[0]), ([], "closed"), name)
        os.unlink(f"{folder}/t.trace")


def marks(folder: str) -> List[Tuple[str, str]]:
    """The programs that have left word that they are not recorded, and why."""
    paths = [f"{folder}/{name}" for name in os.listdir(folder) if re.fullmatch(r"\d+\.unseen", name)]
    texts = [os.readlink(path).split("\n") for path in paths]
    for path in paths:
        os.unlink(path)
    return [(program, why) for program, why in texts]


def check_word(suite: Suite, folder: str, program: str, lives: str) -> None:
    """A process that is not recorded leaves word, or sends it."""
    room = "address space is limited (ulimit -v or -d, or vm.overcommit_memory=2)"
    run_under(folder, ["sh", "-c", f"ulimit -v 1000000; exec {program} behind"], 127)
    expect(marks(folder), [(program, room)], "without room for the shadow")
    peers, _ = run_under(folder, [program, "behind"], ASANCOL_TRACE=f"{folder}/elsewhere")
    expect((peers, [it for it, _ in marks(folder)]), ([], [program]), "with a trace that goes elsewhere")
    peers, _ = run_under(folder, [lives, "forks_by_the_system"])
    why = "it was not made by fork, but by a call of the system"
    expect(marks(folder), [(lives, why)], "a fork that nothing announces")
    name = f"/dev/null/{next(NUMBERS)}"
    with socket.socket(socket.AF_UNIX) as asked:
        asked.bind(f"\0{name}/ask")
        asked.listen()
        settings = environment(ASANCOL_HUB=f"{name}/hub", ASANCOL_TRACE=f"{folder}/elsewhere")
        with Started([program, "behind"], env=settings) as process:
            with accept(asked) as peer:
                word = peer.recv(1 << 10).decode().split("\n")
        why = "ASANCOL_TRACE is set for it, so its trace is there"
        expect((process.returncode, word), (0, ["unseen", program, why]), "without a folder for word")


def check_files(suite: Suite, folder: str, program: str) -> None:
    """A side file has what a hub gets: also after a kill, after an exec that failed, and of a child."""
    for name, (status, ending, number, _) in ENDINGS.items():
        path = f"{folder}/{name}.trace"
        ran = run([program, name], folder, ASANCOL_TRACE=path, ASANCOL_WHERE="1")
        expect((ran.returncode, ran.stderr), (status, b""), name)
        side = side_of(path)
        expect((side.ending, side.signal), (ending, number), name)
        found, _ = placed(suite.asancol, path)
        expect([it.function for it in found], ["put"] * (2 if name == "execs_in_vain" else 1), name)
    ran = run([program, "forks"], folder, ASANCOL_TRACE="f.%p.trace", ASANCOL_WHERE="1")
    names = [name for name in os.listdir(folder) if re.fullmatch(r"f\.\d+\.trace", name)]
    expect(sorted(len(placed(suite.asancol, f"{folder}/{name}")[0]) for name in names), [0, 2], "parent and child")


def check_small_files(suite: Suite, folder: str, program: str) -> None:
    """Under a limit on the size of files there is no room for faults, unless the hub has it: a line says so, and the
    trace is whole."""
    small = ["sh", "-c", f"ulimit -f 4096; exec {program} loops"]
    ran = run(small, folder, ASANCOL_TRACE="t.trace", ASANCOL_WHERE="1")
    expect((ran.returncode, len(ran.stderr.splitlines())), (0, 1), ran.stderr)
    expect(len(reports(suite.asancol, f"{folder}/t.trace")[1]), 100, "reports")
    for gives, lines in ((False, 1), (True, 0)):
        peers, said = run_under(folder, small, gives=gives)
        seen = (peers[0].asked, peers[0].memory is not None, len(said.splitlines()))
        expect(seen, (errno.EFBIG, gives, lines), said)
        expect(len(check(suite, folder, peers[0])[1]), 100, "reports of the hub")
    expect(len(faults_of(peers[0])), 100, "faults in the memory of the hub")


def check_closed(suite: Suite, folder: str, program: str) -> None:
    """A process that closes all descriptors is silent, and its ending is seen."""
    peers, said = run_under(folder, [program, "closes_all"])
    expect((peers[0].side().ending, said), (EXIT, b""), "its ending")
    expect([fault.block_size for fault in faults_of(peers[0])], [8], "what it had sent")
    for name in ("keeps_descriptors", "keeps_errno"):
        one(folder, [program, name])


def check_gone(suite: Suite, folder: str, program: str) -> None:
    """A hub that is gone: the program continues, and the loss is noted."""
    argv, path = [program, "many_faults"], f"{folder}/hub"
    with Hub(path) as hub, Started(argv, env=environment(ASANCOL_HUB=path), stderr=subprocess.PIPE) as process:
        peer = hub.wait_for_memory()
        peer.connection.shutdown(socket.SHUT_RD)
        said = process.communicate(timeout=PATIENCE)[1]
        hub.close()
    expect((process.returncode, len(said.splitlines())), (0, 1), said)
    expect(peer.side().ending, LOST, "its ending")


def check_sent(suite: Suite, folder: str, program: str) -> None:
    """Events recorded some time before a kill were sent, and a fault at once."""
    peer = one(folder, [program, "is_killed_after_fault"], -9)
    expect((check(suite, folder, peer)[1], len(faults_of(peer))), (["store 1 +8 heap-buffer-overflow"], 1), "a fault")
    peer = one(folder, [program, "is_killed_after_a_while"], -9, ASANCOL_FULL="1")
    expect(peer.trace().count(3), 2, "mallocs")
    # It is there while the process still runs.
    path = f"{folder}/running"
    with Hub(path) as hub, Started([program, "sleeps"], env=environment(ASANCOL_HUB=path)) as process:
        peer = hub.wait_for_memory()
        wait_until(lambda: len(faults_of(peer)) == 1, "a fault of a process that runs", PATIENCE)
        process.send_signal(signal.SIGTERM)
        hub.close()
    expect((peer.side().ending, peer.side().signal), (SIGNAL, 15), "its end")


def check_many(suite: Suite, folder: str, program: str) -> None:
    """Many faults of one place, of two threads at once, and of handlers that interrupt the allocator."""
    peer = one(folder, [program, "many_faults"])
    expect((peer.side().fault_count, len(faults_of(peer))), (1, 100000), "faults in a loop")
    peer = one(folder, [program, "threads"])
    side = peer.side()
    found = [(fault.block_size, fault.name) for fault in faults_of(peer)]
    expect((found.count((16, "malloc")), found.count((10, "local"))), (6000, 6000), "faults of two threads")
    expect(side.fault_count <= 8, True, f"a list of {side.fault_count}")
    expect(check(suite, folder, peer)[2].split()[0], "closed", "fate")
    peer = one(folder, [program, "handlers"])
    end = check(suite, folder, peer)[2]
    noted = faults_of(peer)
    count = int(matched(end, r"reports (\d+)")[1])
    expect((end.split()[0], len(noted)), ("closed", count), "reports under a handler")


# What a core may have, in bytes: the heap is there in steps of 16 MB.
MAX_CORE_SIZE = 64 << 20


def check_core(suite: Suite, folder: str, program: str) -> None:
    """A core has the program's heap and stacks, and not the 5 GB that the recorder reserves."""
    script = [*"sh -c".split(), f"ulimit -c unlimited; exec {program} leaves_a_core"]
    for wanted in (NO_SETTINGS, {"ASANCOL_TRACE": "t.trace", "ASANCOL_WHERE": "1"}, None):
        if wanted is None:
            one(folder, script, -signal.SIGABRT)
        else:
            expect(run(script, folder, **wanted).returncode, -signal.SIGABRT, f"status with {wanted}")
        with open(f"{folder}/mapped", encoding="utf-8") as file:
            text = file.read()
        parts = re.findall(r"^([0-9a-f]+)-([0-9a-f]+) (\S+) .*\n(?:.*\n)*?VmFlags: (.*)\n", text, re.M)
        spans = [(int(low, 16), int(high, 16)) for low, high, mode, flags in parts
                 if "w" in mode and " dd" not in f" {flags}"]
        expect(sum(high - low for low, high in spans) < MAX_CORE_SIZE, True, f"a core of {spans}, with {wanted}")
        places = [int(it, 16) for it in text.splitlines()[-1].split()[1:]]
        expect([any(low <= at < high for low, high in spans) for at in places], [True, True], "heap and stack")
        for core in glob.glob(f"{folder}/core*"):  # where the system leaves it here
            expect(os.path.getsize(core) < MAX_CORE_SIZE, True, "the size of the core")
            with open(core, "rb") as file:
                data = file.read()
            expect([re.search(it, data) is None for it in (rb"on-the-heap-\d+\0", rb"on-the-stack-\d+\0")],
                   [False, False], "the texts in the core")
            os.unlink(core)


def process_tests(suite: Suite, compiler: Compiler) -> None:
    program, lives = suite.programs[f"{suite.folder}/hub-{compiler}-O0"], lives_of(suite, compiler)
    suite.test(f"{compiler} hub head", check_head, program)
    suite.test(f"{compiler} hub endings", check_endings, program)
    suite.test(f"{compiler} hub core", check_core, program)
    suite.test(f"{compiler} hub forks", check_forks, program)
    suite.test(f"{compiler} hub closing children", check_closing_children, program)
    suite.test(f"{compiler} hub forks in handlers", check_forks_in_handlers, lives)
    suite.test(f"{compiler} hub exec", check_exec, program)
    suite.test(f"{compiler} hub limit", check_limit, program)
    suite.test(f"{compiler} hub no checks", check_no_checks, compiler)
    suite.test(f"{compiler} hub modules", check_modules, program, compiler)
    suite.test(f"{compiler} hub names", check_names, program)
    suite.test(f"{compiler} hub beside many files", check_many_files, program)
    suite.test(f"{compiler} hub root", check_root, program)
    suite.test(f"{compiler} hub stacks", check_stacks, program)
    suite.test(f"{compiler} hub stacks through libraries", check_through_libraries, program, list(THROUGH_LIBRARIES))
    static = suite.programs[f"{suite.folder}/hub-{compiler}-static"], ["sorts", "makes_text", "opens_stream", "handles"]
    suite.test(f"{compiler} hub stacks through libraries, static", check_through_libraries, *static)
    suite.long_test(f"{compiler} hub stacks of handlers", check_stacks_of_handlers, program)
    suite.test(f"{compiler} hub last", check_last, program)
    suite.test(f"{compiler} hub handlers of threads", check_handlers_of_threads, program)
    suite.test(f"{compiler} hub fallback", check_fallback, program)
    suite.test(f"{compiler} hub word", check_word, program, lives)
    suite.test(f"{compiler} hub files", check_files, program)
    suite.test(f"{compiler} hub small files", check_small_files, program)
    suite.test(f"{compiler} hub closed descriptors", check_closed, program)
    suite.test(f"{compiler} hub gone", check_gone, program)
    suite.test(f"{compiler} hub sent", check_sent, program)
    suite.test(f"{compiler} hub many", check_many, program)


def tests(suite: Suite, compiler: Compiler) -> None:
    fault_tests(suite, compiler)
    process_tests(suite, compiler)
