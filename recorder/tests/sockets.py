"""Traces over sockets and pipes, and peers that leave or never read."""

import os
import socket
import subprocess
import time

from lives import every_of, lives_of
from support import Failure, environment, expect, run
from testing.programs import PATIENCE, Started, accept, wait_until


def serve(suite, folder, count):
    ready = f"{folder}/ready"
    argv = [suite.asancol, "serve", "--count", str(count), "--ready", ready, "t.sock"]
    server = Started(argv, cwd=folder, stdout=subprocess.PIPE, env=environment())
    wait_until(lambda: os.path.exists(ready) or server.poll() is not None, "the collector")
    if server.poll() is not None:
        raise Failure("the collector ended")
    return server


def check_socket(suite, folder, program, name, status, fate, lines):
    """Over a socket: `lines` reports of process 0 are wanted."""
    server = serve(suite, folder, 1)
    ran = run([program, name], folder, ASANCOL_SOCKET="t.sock")
    expect(ran.returncode, status, "status of the program")
    said, _ = server.communicate(timeout=PATIENCE)
    text = said.decode().splitlines()
    expect(len(text) - 1, lines, "reports")
    expect(text[-1].split(" events ")[0], f"p0 end {fate}", "fate")
    wanted_lines = 1 if name.startswith("forks") else 0
    expect(len(ran.stderr.decode().splitlines()), wanted_lines, ran.stderr)


def check_two_at_a_socket(suite, folder, program):
    """The first sends more than a socket holds before the second is there, and is not held up."""
    server = serve(suite, folder, 2)
    first = Started([program, "many_events"], cwd=folder, env=environment(ASANCOL_SOCKET="t.sock"))
    second = run([program, "ends_normally"], folder, ASANCOL_SOCKET="t.sock")
    expect((first.wait(timeout=PATIENCE), second.returncode), (0, 0))
    said, _ = server.communicate(timeout=PATIENCE)
    ends = [line.split()[:3] for line in said.decode().splitlines() if " end " in line]
    expect(ends, [["p0", "end", "closed"], ["p1", "end", "closed"]])


def check_silent_reader(suite, folder, program, is_socket):
    """Nobody reads the output: the process need not wait, and does not see that the recorder tried."""
    if is_socket:
        reader = socket.socket(socket.AF_UNIX)
        reader.bind(f"{folder}/out")
        reader.listen(1)
        where = {"ASANCOL_SOCKET": "out"}
    else:
        os.mkfifo(f"{folder}/out")
        reader = open(os.open(f"{folder}/out", os.O_RDONLY | os.O_NONBLOCK), "rb")
        where = {"ASANCOL_TRACE": "out"}
    with reader:
        ran = run([program, "keeps_errno"], folder, ASANCOL_PATIENCE="1", **where)
    expect((ran.returncode, len(ran.stderr.splitlines())), (0, 1), ran.stderr)


def check_stranger(suite, folder, program, closes):
    """A peer that never reads, and one that leaves at once."""
    listening = socket.socket(socket.AF_UNIX)
    listening.bind(f"{folder}/t.sock")
    listening.listen(1)
    ran = Started(
        [program, "many_events"],
        cwd=folder,
        stderr=subprocess.PIPE,
        env=environment(ASANCOL_SOCKET="t.sock", ASANCOL_PATIENCE="1"),
    )
    if closes:
        accept(listening).close()
    _, said = ran.communicate(timeout=PATIENCE)
    listening.close()
    expect(ran.returncode, 0, "status of the program")
    expect(len(said.decode().splitlines()), 1, said)


def check_slow_reader(suite, folder, program):
    """A peer that reads all the time, but less than the socket holds in the time of ASANCOL_PATIENCE, gets all."""
    close = b"\7"
    listening = socket.socket(socket.AF_UNIX)
    listening.bind(f"{folder}/t.sock")
    listening.listen(1)
    where = environment(ASANCOL_SOCKET="t.sock", ASANCOL_PATIENCE="2")
    ran = Started([program, "many_events"], cwd=folder, stderr=subprocess.PIPE, env=where)
    peer, trace, begun = accept(listening), b"", time.monotonic()
    while piece := peer.recv(4096):
        trace += piece
        time.sleep(0.1 if time.monotonic() < begun + 6 else 0)
    _, said = ran.communicate(timeout=PATIENCE)
    listening.close()
    expect((ran.returncode, said, trace[-1:]), (0, b"", close), f"{len(trace)} bytes")


def check_pipe(suite, folder, program):
    argv = ["sh", "-c", f"ASANCOL_TRACE=/dev/fd/3 {program} many_events 3>&1 | {suite.asancol}"]
    ran = run(argv, folder)
    lines = ran.stdout.decode().splitlines()
    expect((ran.stderr, len(lines), lines[-1].split()[:3]), (b"", 2, ["p0", "end", "closed"]))


def tests(suite, compiler):
    program, every = lives_of(suite, compiler), every_of(suite, compiler)
    for name, status, fate, lines in (
        ("ends_normally", 0, "closed", 1),
        ("many_events", 0, "closed", 1),
        ("segfaults", -11, "no-close", 1),
        ("is_terminated", -15, "no-close", 1),
        ("ends_by__exit", 7, "closed", 1),
        ("threads_exchange", 0, "closed", 1),
        ("forks", 0, "closed", 0),
        ("execs_in_vain", 0, "closed", 2),
    ):
        suite.test(f"{compiler} socket {name}", check_socket, program, name, status, fate, lines)
    suite.test(f"{compiler} two at a socket", check_two_at_a_socket, program)
    suite.test(f"{compiler} a peer that leaves", check_stranger, every, True)
    suite.test(f"{compiler} a peer that never reads", check_stranger, every, False)
    suite.test(f"{compiler} a peer that reads slowly", check_slow_reader, every)
    suite.test(f"{compiler} a socket that nobody reads", check_silent_reader, every, True)
    suite.test(f"{compiler} a pipe that nobody reads", check_silent_reader, every, False)
    suite.test(f"{compiler} pipe", check_pipe, program)
