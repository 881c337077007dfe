"""A socket: peers, threads, memory, and what cannot be served."""

import os
import re
import socket
import subprocess
import threading
import time

import refused_calls
from program import (
    CUT, FAR_APART, PAST_THE_END, PATIENCE, SOUND, TWICE_FREED, Served, closing, connected, cut,
    holds, lines_of_each, past_the_end, prepared, put, same, sound, with_refused,
)
from testing import test
from testing.traces import closed, load, malloc, store


@test
def peers_on_a_socket(program):
    both = past_the_end(0) + past_the_end(1)
    for ring, workers in [("1", "1"), ("1024", "2"), ("2", "64")]:
        argv = ["--count", "2", "--ring", ring, "--workers", workers]
        Served(program, *argv).send(PAST_THE_END, PAST_THE_END).expect(1, both)
    Served(program, "--count", "1").send(SOUND).expect(0, sound())
    Served(program, "--count", "1").send(CUT).expect(3, cut())
    Served(program, "--count", "3").send(b"GET / HTTP/1.1\r\n\r\n", b"", PAST_THE_END).expect(
        3,
        "p0 end malformed header events 0 offset 0 reports 0\n"
        "p1 end truncated events 0 offset 0 reports 0\n" + past_the_end(2),
    )


@test
def options_of_serve(program):
    Served(program, "--count", "1", "--quarantine", "71").send(TWICE_FREED).expect(
        1, "p0 #3 free at 000000001000 bad-free\np0 end closed events 3 offset 44 reports 1\n"
    )
    Served(program, "--limit", "2", "--count", "1").send(TWICE_FREED).expect(
        3, "p0 end too-many events 2 offset 34 reports 0\n"
    )


def peak_of(process):
    """Waits for a process, and gives its status, its output, and the most memory that it held."""
    clock = threading.Timer(PATIENCE, process.kill)
    clock.start()
    _, status, usage = os.wait4(process.pid, 0)
    clock.cancel()
    process.returncode = os.waitstatus_to_exitcode(status)
    return process.returncode, process.stdout.read(), usage.ru_maxrss << 10


@test
def memory_of_each_process(program):
    """A process that is out of memory harms no other, not even one that is out of memory too, and
    no more is held than docs/MEMORY.md says."""
    program.leave_out_with_checks("more is held")
    bound = 1 << 26
    # Two of the five come to their bound.
    most = 2 * (bound + bound // 8) + 5 * (1 << 18) + (1 << 22)
    beside = [(PAST_THE_END, past_the_end), (CUT, cut), (SOUND, sound)]
    far = (FAR_APART, lambda process: f"p{process} end no-memory checked (\\d+) reports 0\n")
    checked = set()
    for place in range(4):
        traces = [far, *beside[:place], far, *beside[place:]]
        wanted = "".join(text(process) for process, (_, text) in enumerate(traces))
        files = [put(f"trace{process}", data) for process, (data, _) in enumerate(traces)]
        argv = ["check", "--memory", str(bound), *files]
        checking = subprocess.Popen(
            [program.path, *argv], preexec_fn=prepared(), stdout=subprocess.PIPE
        )
        Served.running.append(checking)
        served = Served(program, "--memory", str(bound), "--count", "5")
        served.send(*(data for data, _ in traces))
        for process in [checking, served.program]:
            status, output, peak = peak_of(process)
            Served.running.remove(process)
            same(argv, status, 3)
            found = re.fullmatch(wanted, output.decode())
            holds(argv, found, output.decode())
            checked.update(found.groups())
            holds(argv, bound < peak < most, f"{peak} bytes were held, and not {most}")
        os.remove("socket")
    # Each ends at the same event each time, whatever another holds.
    holds("--memory", len(checked) == 1, checked)


@test
def memory_of_one_process(program):
    """A checker has all of its bound, and says how many events it has checked."""
    program.leave_out_with_checks("more is held")
    near = [malloc(0x1000, 5), store(4, 0x1004), *[load(1, 0x1000)] * 5]
    far = put("far", closed(*near, *(malloc(place << 30, 8) for place in range(1, 100_001))))
    report = past_the_end().splitlines(keepends=True)[0]
    text = re.compile(re.escape(report.encode()) + rb"p0 end no-memory checked (\d+) reports 1\n")
    checked = []
    for bound in (1 << 20, 1 << 21, 1 << 26):
        argv = [program.path, "check", "--memory", str(bound), far]
        running = subprocess.Popen(argv, preexec_fn=prepared(), stdout=subprocess.PIPE)
        Served.running.append(running)
        status, output, peak = peak_of(running)
        found = text.fullmatch(output)
        holds(argv, status == 3 and found, (status, output))
        holds(argv, peak > bound * 3 / 4, f"{peak} bytes were held")
        checked.append(int(found[1]))
    holds("--memory", len(near) < checked[0] and 1.5 < checked[1] / checked[0] < 2.5, checked)


@test
def memory_of_the_last_process(program):
    """The checker of each of 256 processes has its bound, that of the last one too; and each other
    process has all of its lines, with --live too."""
    kinds = [put("sound", SOUND), put("past", PAST_THE_END), put("frees", TWICE_FREED)]
    names = [kinds[process % len(kinds)] for process in range(255)] + [put("far", FAR_APART)]
    wanted = lines_of_each(program.run(["check", *names])[1])
    for live in [[], ["--live"]]:
        argv = ["check", *live, "--memory", str(1 << 20), *names]
        status, output, _ = program.run(argv)
        lines = lines_of_each(output)
        last = lines.pop("p255")
        holds(argv, re.fullmatch(r"p255 end no-memory checked \d+ reports 0\n", last), last)
        same(argv, lines, {process: wanted[process] for process in lines})
        same(argv, (len(lines), status), (255, 3))


@test
def memory_that_all_share(program):
    """The bound is that of the checkers: lanes of 128 MiB in all are made beside it."""
    names = [put("sound", SOUND)] * 64
    argv = ["check", "--memory", str(1 << 20), "--ring", "65536", *names]
    program.expect(argv, 0, "".join(map(sound, range(64))))


@test
def peers_beside_closed_streams(program):
    """No peer is taken for a standard stream that was closed: none gets the output."""
    for streams in [(0,), (0, 1), (0, 1, 2)]:
        served = Served(program, "--count", "2", before=closing(*streams))
        peers = [served.connect() for _ in range(2)]
        for peer in peers:
            peer.sendall(PAST_THE_END)
            peer.shutdown(socket.SHUT_WR)
        both = past_the_end(0) + past_the_end(1)
        served.expect(*((1, both) if streams == (0,) else (4, "")))
        for peer in peers:
            same(streams, peer.recv(4096), b"")
            peer.close()


@test
def threads_of_workers(program):
    """Each worker but the first has its own thread, and each peer a reader."""
    for workers in [1, 2, 3]:
        served = Served(program, "--count", "3", "--workers", str(workers))
        peers = [served.connect() for _ in range(3)]
        tasks = f"/proc/{served.program.pid}/task"
        for _ in range(PATIENCE * 100):
            if len(os.listdir(tasks)) >= workers + 3:
                break
            time.sleep(0.01)
        time.sleep(0.2)
        same(served.argv, len(os.listdir(tasks)), workers + 3)
        for peer in peers:
            peer.sendall(SOUND)
            peer.close()
        served.expect(0, sound(0) + sound(1) + sound(2))


@test
def accepts_that_fail(program):
    """An accept that fails is not tried again: it uses up one of the count, and the peer in line
    is the next that arrives."""
    argv = ["serve", "--count", "3", "socket"]
    for refused in [{1}, {2}, {3}, {1, 2}, {2, 3}, {1, 2, 3}]:

        def come():
            for peer in [connected(argv) for _ in range(3 - len(refused))]:
                peer.sendall(PAST_THE_END)
                peer.close()

        peers = threading.Thread(target=come)
        peers.start()
        ran = with_refused(program, argv, refused_calls.ACCEPTS, refused.__contains__)
        peers.join()
        os.remove("socket")
        text = "".join(
            f"p{number - 1} end not-opened\n" if number in refused else past_the_end(number - 1)
            for number in [1, 2, 3]
        )
        same(refused, ran, (3, text.encode(), b"", 3))


@test
def paths_that_cannot_be_served(program):
    put("there", SOUND)
    os.mkdir("folder")
    with socket.socket(socket.AF_UNIX) as left:
        left.bind("left")
    argv = ["serve", "--count", "1", "--ready", "ready"]
    for path in ["there", "folder", "left", "", "missing/socket"]:
        program.expect([*argv, path], 3, "", "cannot serve\n")
    holds(argv, os.path.exists("left"), "the socket of another run is gone")
    holds(argv, not os.path.exists("ready"), "the file of --ready is there")
    program.expect(["check", "there"], 0, sound())
    for ready in ["missing/ready", "folder"]:
        argv = ["serve", "--count", "1", "--ready", ready, "socket"]
        program.expect(argv, 3, "", "cannot serve\n")
        os.remove("socket")


@test
def file_that_says_ready(program):
    for earlier in [False, True]:
        if earlier:
            put("ready", b"an earlier run")
        served = Served(program, "--count", "1", "--ready", "ready")
        for _ in range(PATIENCE * 100):
            if os.path.exists("ready") and os.path.getsize("ready") == 0:
                break
            time.sleep(0.01)
        else:
            holds("--ready", False, "there is no empty file")
        peer = socket.socket(socket.AF_UNIX)
        peer.connect("socket")
        peer.sendall(PAST_THE_END)
        peer.close()
        served.expect(1, past_the_end())
        os.remove("ready")
