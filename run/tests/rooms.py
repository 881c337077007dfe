"""Where asancol-run works: folders that are missing, full or read-only, sandboxes, runs inside runs."""

import glob
import os
import shutil
import socket
import time
from contextlib import ExitStack
from typing import List

from support import REPORT, RUN, SANITIZE, Suite, expect, expect_ran, leave_out, marked_slack, write_text
from testing.programs import call


def check_folder(suite: Suite, folder: str, kind: str) -> None:
    """Each TMPDIR will do."""
    places = {
        "missing": "/proc/none/place",
        "long": f"{folder}/{'x' * 120}",
        "read-only": f"{folder}/read-only",
        "file": f"{folder}/file",
        "relative": "some/where",
        "empty": "",
        "with blanks": f"{folder}/a b 'c'",
    }
    place = places[kind]
    if kind == "file":
        with open(place, "w", encoding="utf-8"):
            pass
    elif place.startswith(folder):
        os.makedirs(place)
    if kind == "read-only":
        os.chmod(place, 0o500)
    expect_ran(suite.run("--", suite.program, "past", TMPDIR=place), 99)
    expect_ran(suite.run("--", suite.program, "sound", TMPDIR=place), 0, "1 process", "all complete")


def check_full_folder(suite: Suite, folder: str) -> None:
    """A file system without a free inode, in a namespace of mounts."""
    line = (
        f"mount -t tmpfs -o size=4k,nr_inodes=2 none {folder} && touch {folder}/x && "
        f"TMPDIR={folder} exec {RUN} -- {suite.program} sound"
    )
    ran = suite.run_argv(["unshare", "-rm", "sh", "-c", line])
    expect_ran(ran, 0, "all complete")


def check_no_folder_at_all(suite: Suite, folder: str) -> None:
    """Everything is read-only, /tmp and /dev/shm too: the name that needs no folder serves."""
    argv = ["bwrap", "--ro-bind", "/", "/", "--proc", "/proc", RUN, "--", suite.program, "past"]
    expect_ran(suite.run_argv(argv), 99)


def check_replaced(suite: Suite, folder: str) -> None:
    """In a folder that replaces the run's nothing is looked at and nothing is removed, and the run says so."""
    room, other = f"{folder}/room", f"{folder}/other"
    why = "(unknown): INCOMPLETE: the folder of the run was replaced, with all that"
    for put in (f"ln -s {other} $it", f"mv {other} $it"):
        for each in (room, other):
            os.makedirs(each, exist_ok=True)
        write_text(f"{other}/1.trace", "no trace")
        line = f"it=${{ASANCOL_HUB%/*}}; mv $it $it.x; {put}; {suite.program} sound"
        expect_ran(suite.run("--unchecked=no", "sh", "-c", line, TMPDIR=room), 98, why, "2 processes, 2 events",
                   absent=["1.trace"])
        left = sorted(os.path.relpath(it, folder) for it in glob.glob(f"{folder}/*/*/*") + glob.glob(f"{other}/*"))
        expect([os.path.basename(it) for it in left][-1:], ["1.trace"], "what stays of the other folder")
        expect([it for it in left if ".x" in it], [], "what stays of the run's")
        shutil.rmtree(room)


def check_open_folder(suite: Suite, folder: str) -> None:
    """A folder in which anybody may move others' files is passed over, with a line."""
    line = f"asancol-run: TMPDIR: {folder}: anybody may move its contents"
    for mode, is_named in ((0o777, True), (0o1777, False), (0o2775, False)):
        os.chmod(folder, mode)
        ran = suite.run("--", "sh", "-c", f"{suite.program} sound; echo $ASANCOL_HUB", TMPDIR=folder)
        expect_ran(ran, 0, "all complete")
        expect((line in ran.err, f"{folder}/asancol-" in ran.out), (is_named, not is_named), oct(mode))
    os.chmod(folder, 0o777)
    expect_ran(suite.run("-q", "--", suite.program, "sound", TMPDIR=folder), 0, absent=["asancol"])


def check_mask(suite: Suite, folder: str) -> None:
    """A mask that leaves no right takes nothing from the run."""
    line = f"umask 0777; exec {RUN} -- {suite.program} past"
    expect_ran(suite.run_argv(["sh", "-c", line], TMPDIR=folder), 99)
    expect(os.listdir(folder), [], "what is left")


def check_swept(suite: Suite, folder: str) -> None:
    """The folder of a run that was killed goes with the next run; that of one that is alive stays, and what another
    system, user or release has made."""
    suite.run("--", "sh", "-c", f"{suite.program} sound; kill -9 $PPID", TMPDIR=folder)
    killed, = os.listdir(folder)
    write_text(f"{folder}/{killed}/7.trace", "")
    for name, boot in (("asancol-elder0", ""), ("asancol-other1", "another start"), ("asancol-longer22", "")):
        os.makedirs(f"{folder}/{name}")
        if boot:
            os.symlink(boot, f"{folder}/{name}/boot")
    others = sorted(set(os.listdir(folder)) - {killed})
    line = f"{RUN} -q -- {suite.program} sound; test -S $ASANCOL_HUB && echo alive"
    ran = suite.run("--", "sh", "-c", line, TMPDIR=folder)
    expect_ran(ran, 0)
    expect("alive" in ran.out, True, ran.out)
    expect(sorted(os.listdir(folder)), others, "what is left")


def check_folder_is_removed(suite: Suite, folder: str) -> None:
    for word in ("past", "sound"):
        suite.run("--", suite.program, word, TMPDIR=folder)
    suite.run("--", "no-such-command", TMPDIR=folder)
    suite.run("--", RUN, "--", suite.program, "past", TMPDIR=folder)
    expect(os.listdir(folder), [], "what is left")


def check_other_folder(suite: Suite, folder: str) -> None:
    expect_ran(suite.run("--", "sh", "-c", f"cd /; {suite.program} past", cwd="/usr"), 99)


BOXES = {
    "everything": "--dev-bind / /",
    "own processes": "--dev-bind / / --unshare-pid --proc /proc",
    "read-only": "--ro-bind / / --dev /dev",
    "own /tmp": "--ro-bind / / --dev /dev --tmpfs /tmp --ro-bind FOLDER FOLDER",
    "own network": "--dev-bind / / --unshare-net",
}


def check_box(suite: Suite, folder: str, box: str) -> None:
    words = box.replace("FOLDER", suite.folder).split()
    expect_ran(suite.run("--", "bwrap", *words, suite.program, "child", TMPDIR="/tmp"), 99)


def check_closed_box(suite: Suite, folder: str) -> None:
    """With its own /tmp and network, nothing gets out: the run is not called clean."""
    box = BOXES["own /tmp"].replace("FOLDER", suite.folder)
    ran = suite.run("--", "bwrap", *box.split(), "--unshare-net", suite.program, "sound", TMPDIR="/tmp")
    expect_ran(ran, 98, "NOTHING WAS RECORDED")


def check_file_instead(suite: Suite, folder: str) -> None:
    """A process that cannot reach the socket leaves a file, which is checked at the end."""
    line = f"rm $ASANCOL_HUB; exec unshare -rn {suite.program}"
    packets = f"{folder}/packets"
    ran = suite.run("--", "sh", "-c", f"{line} child", FAKE_PACKETS=packets)
    expect_ran(ran, 99)
    with open(packets, encoding="utf-8") as lines:
        text = lines.read()
    expect(text.count('"trace": "'), 2, "processes with files")
    ran = suite.run("--", "sh", "-c", f"{line} sound")
    expect_ran(ran, 0, "1 process, 2 events; all complete")
    ran = suite.run("--", "sh", "-c", f"{line} kills_itself 9")
    expect_ran(ran, -9, "ended abruptly, by SIGKILL: seen up to there", "all complete, 1 ended abruptly")


def nested(suite: Suite, line: str) -> List[str]:
    return ["--", "sh", "-c", line.replace("RUN", RUN).replace("PROGRAM", suite.program)]


def check_nested(suite: Suite, folder: str) -> None:
    """The inner run reports; the outer one knows of it."""
    expect_ran(suite.run(*nested(suite, "RUN -q -- PROGRAM sound")), 0)
    expect_ran(suite.run("-q", *nested(suite, "RUN -q -- PROGRAM sound; exit 4")), 4)
    expect_ran(suite.run(*nested(suite, "RUN -q -- true"), FAKE="3"), 98)
    expect_ran(suite.run("--nothing-exitcode", "77", *nested(suite, "RUN -q -- true; true"), FAKE="3"), 77)
    # The fake report does not read what the inner one has left.
    expect_ran(suite.run(*nested(suite, "RUN -q -- PROGRAM past")), 99, "the report")
    expect_ran(suite.run(*nested(suite, "RUN -q -- PROGRAM past 2>/dev/null; PROGRAM past")), 99, "the report")


def check_nested_lost(suite: Suite, folder: str) -> None:
    """An inner run that is killed leaves no result, and one whose command cannot be started was none."""
    line = "RUN -q -- sh -c 'PROGRAM sound; kill -9 $PPID'; PROGRAM sound"
    expect_ran(suite.run(*nested(suite, line)), 98, "INCOMPLETE: 1 run inside this one left no result")
    ran = suite.run("--json", f"{folder}/x", *nested(suite, line), ASANCOL_REPORT=REPORT)
    expect_ran(ran, 98, "INCOMPLETE: 1 run inside this one left no result")
    expect_ran(suite.run(*nested(suite, "RUN -q -- /proc/none; PROGRAM sound")), 0, "all complete")


def check_nested_without_folder(suite: Suite, folder: str) -> None:
    """An inner run that can leave no result is a process that was not seen."""
    line = "rm -r ${ASANCOL_HUB%/*}; RUN -q -- PROGRAM sound"
    ran = suite.run(*nested(suite, line))
    expect_ran(ran, 98, "does not get this result", ": INCOMPLETE: it was not recorded, or not by this run")


def check_nested_result(suite: Suite, folder: str) -> None:
    """What a clean inner run leaves are JSON lines, and the report of the outer one is given their folder."""
    copy = f"{folder}/copy"
    packets = f"{folder}/packets"
    line = f"RUN -q -- PROGRAM sound; cp -r $(dirname $ASANCOL_HUB) {copy}"
    expect_ran(suite.run(*nested(suite, line), FAKE_PACKETS=packets), 0)
    names = sorted(it for it in os.listdir(copy) if it.startswith("nested."))
    expect([it.rpartition(".")[2] for it in names], ["begun", "jsonl", "recorded"], "files")
    with open(f"{copy}/{names[1]}", encoding="utf-8") as lines:
        expect([it.split('"')[3] for it in lines], ["run", "process", "end"], "lines")
    with open(packets, encoding="utf-8") as lines:
        words = lines.readline()
    expect("--nested" in words, True, words)


# Lets awaited events come within a second, however long that may take.
HURRIES = """
#define _GNU_SOURCE
#include <sys/socket.h>
#include <sys/syscall.h>
#include <sys/time.h>
#include <unistd.h>
int setsockopt(int made, int level, int name, const void *value, socklen_t size)
{
    int is_time = level == SOL_SOCKET && (name == SO_RCVTIMEO || name == SO_SNDTIMEO);
    struct timeval second = {1, 0};
    return (int)syscall(SYS_setsockopt, made, level, name, is_time ? &second : value, size);
}
"""
# Takes the mark of a run, and becomes a program.
MARKED = "import ctypes, os, sys; ctypes.CDLL(None).prctl(29, int(sys.argv[1])); os.execvp(sys.argv[2], sys.argv[2:])"
LATEST = 20


def full_queue(stack: ExitStack, name: str) -> None:
    """Listens under an abstract name, and leaves no place in the queue."""
    listener = stack.enter_context(socket.socket(socket.AF_UNIX))
    listener.bind(f"\0{name}")
    listener.listen(0)
    for _ in range(3):
        peer = stack.enter_context(socket.socket(socket.AF_UNIX, socket.SOCK_STREAM | socket.SOCK_NONBLOCK))
        peer.connect_ex(f"\0{name}")


def check_full_queue(suite: Suite, folder: str) -> None:
    """An inner run does not wait for ever for one that accepts no connections any more."""
    write_text(f"{folder}/hurries.c", HURRIES)
    call(["cc", "-shared", "-fPIC", f"{folder}/hurries.c", "-o", f"{folder}/hurries.so"], check=True)
    outer = f"{folder}/asancol-outer"
    line = [RUN, "--", "env", "-u", "LD_PRELOAD", "-u", "ASANCOL_HUB", suite.program, "sound"]
    with ExitStack() as stack:
        stack.enter_context(socket.socket(socket.AF_UNIX)).bind(f"\0{outer}/hub")
        full_queue(stack, f"{outer}/ask")
        full_queue(stack, f"{outer}/full")
        for argv, said in (
            (["python3", "-c", MARKED, str(marked_slack(f"{outer}/hub")), *line], "all complete"),
            (["env", f"ASANCOL_HUB={outer}/full-0", *line], "the outer run does not get this result"),
        ):
            begun = time.monotonic()
            environment = suite.environment(LD_PRELOAD=f"{folder}/hurries.so")
            ran = call(argv, env=environment, capture_output=True, text=True, timeout=LATEST)
            expect((ran.returncode, said in ran.stderr), (0, True), ran.stderr)
            expect(time.monotonic() - begun > 1, True, "whether it has waited")


def tests(suite: Suite) -> None:
    for kind in ("missing", "long", "read-only", "file", "relative", "empty", "with blanks"):
        suite.test(f"TMPDIR {kind}", check_folder, kind)
    suite.test("folder is removed", check_folder_is_removed)
    suite.test("folder is replaced", check_replaced)
    suite.test("folder of a run that was killed", check_swept)
    suite.test("TMPDIR open to all", check_open_folder)
    suite.test("umask", check_mask)
    suite.test("another folder", check_other_folder)
    suite.test("nested", check_nested)
    suite.test("nested run that is killed", check_nested_lost)
    suite.test("nested run without a folder", check_nested_without_folder)
    suite.test("nested result", check_nested_result)
    if not SANITIZE:  # whose library has to be the first
        suite.test("nested run in a full queue", check_full_queue)
    alone = suite.run_argv(["unshare", "-rmn", "true"]).status == 0
    if alone:
        suite.test("TMPDIR full", check_full_folder)
        suite.test("file instead of the socket", check_file_instead)
    else:
        leave_out("unshare cannot make namespaces")
    if shutil.which("bwrap") and suite.run_argv(["bwrap", "--dev-bind", "/", "/", "true"]).status == 0:
        for name, box in BOXES.items():
            suite.test(f"bubblewrap, {name}", check_box, box)
        suite.test("bubblewrap, own /tmp and network", check_closed_box)
        suite.test("no folder at all", check_no_folder_at_all)
    else:
        leave_out("bubblewrap is not there, or cannot make a sandbox")
