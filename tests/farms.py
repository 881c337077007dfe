#!/usr/bin/env python3
"""Runs the recipes of examples/farms with the real tools: each bug is in the result of its test, and in one merged
report.

usage: tests/farms.py [--list] [--junit FILE] ASANCOL [WORD..]

With words, only recipes whose names have one of them. A recipe whose tool is not there is left out, and a line says so.
Each runs in a copy of the folder `project`. The page docs/FARMS.md has to have the commands of each, and the blocks of
docs/CI.md are run as they stand (ci.py). And projects come from AddressSanitizer by changing the compiler alone
(switching.py). Tests of frameworks fail by reports (frameworks.py).
"""

import contextlib
import glob
import json
import os
import re
import shutil
import signal
import socket
import subprocess
import sys
import tempfile
from typing import Callable, Dict, Iterator, List, NamedTuple, Sequence, Set, Tuple

HERE = os.path.dirname(os.path.realpath(__file__))
sys.path.insert(0, f"{HERE}/..")  # where `testing` is
sys.path.append(f"{HERE}/../recorder/tests")  # where `real` is

import ci
import frameworks
import switching
from testing import TOP, Failure, LeftOut, Suite, expect, expect_in, suite, wait_until, write_text
from testing.programs import REPORT, ran_of, run

FARMS = f"{TOP}/examples/farms"

TESTS = ("split", "join", "child", "wait", "vendor")
# Where the two bugs are: the test, the file and what its line says.
BUGS = (("join", "words.c", "BUG of join"), ("child", "child.c", "BUG of child"))
USUAL = {"split": "0", "join": "99", "child": "99", "wait": "98", "vendor": "98"}

Statuses = Dict[str, str]


def text_of(path: str) -> str:
    with open(path, encoding="utf-8") as file:
        return file.read()


# How each engine shows a test.

def of_parallel(folder: str) -> Statuses:
    rows = [line.split("\t") for line in text_of(f"{folder}/jobs.txt").splitlines()[1:]]
    return {row[8].rsplit("/", 1)[1]: row[6] for row in rows}


def of_lines(folder: str) -> Statuses:
    """What the script itself has noted of each test."""
    return dict(line.split(" ", 1) for line in text_of(f"{folder}/statuses.txt").splitlines())


def of_slurm(folder: str) -> Statuses:
    argv = ["scontrol", "--oneliner", "show", "job"]
    settings = {**os.environ, "SLURM_CONF": f"{folder}/cluster/slurm.conf"}
    shown = subprocess.run(argv, env=settings, stdout=subprocess.PIPE, text=True, check=True).stdout
    found = re.findall(r"ArrayTaskId=(\d) .*?JobState=(\w+) .*?ExitCode=(\d+):", shown)
    return {TESTS[int(number)]: f"{state} {status}" for number, state, status in found}


# What has to run for a recipe.

@contextlib.contextmanager
def nothing_more(suite: Suite, folder: str) -> Iterator[Dict[str, str]]:
    yield {}


def start(started: List["subprocess.Popen[bytes]"], log: str, *argv: str) -> None:
    """Starts a daemon that stays in the foreground."""
    with open(log, "wb") as out:
        started.append(subprocess.Popen(argv, stdin=subprocess.DEVNULL, stdout=out, stderr=out))


def end(started: List["subprocess.Popen[bytes]"]) -> None:
    for process in reversed(started):
        process.terminate()
        try:
            process.wait(10)
        except subprocess.TimeoutExpired:
            process.kill()
            process.wait()


def free_ports(count: int) -> List[int]:
    """Returns ports of this machine that nobody listens on."""
    with contextlib.ExitStack() as stack:
        made = [stack.enter_context(socket.socket()) for _ in range(count)]
        for each in made:
            each.bind(("127.0.0.1", 0))
        ports = [each.getsockname()[1] for each in made]
    return ports


def listens(port: int) -> bool:
    with socket.socket() as made:
        return made.connect_ex(("127.0.0.1", port)) == 0


@contextlib.contextmanager
def ssh_nodes(suite: "Farm", folder: str) -> Iterator[Dict[str, str]]:
    """Two machines, which are this one by ssh on a port of loopback, with keys for this test alone."""
    keys = f"{folder}/ssh"
    os.mkdir(keys, 0o700)
    for name in ("host", "user"):
        subprocess.run(["ssh-keygen", "-q", "-t", "ed25519", "-N", "", "-f", f"{keys}/{name}"], check=True)
    shutil.copy(f"{keys}/user.pub", f"{keys}/authorized")
    port = free_ports(1)[0]
    settings = " ".join(f"{name}={value}" for name, value in suite.settings.items())
    write_text(f"{keys}/server", f"Port {port}\nListenAddress 127.0.0.1\nHostKey {keys}/host\nPidFile none\n"
          f"AuthorizedKeysFile {keys}/authorized\nStrictModes no\nUsePAM no\nSetEnv {settings}\n")
    write_text(f"{keys}/client", f"Host node-*\n HostName 127.0.0.1\n Port {port}\n IdentityFile {keys}/user\n"
          f" IdentitiesOnly yes\n StrictHostKeyChecking no\n UserKnownHostsFile {keys}/known\n LogLevel ERROR\n")
    write_text(f"{folder}/nodes", "".join(f"2/ssh -F {keys}/client node-{name}\n" for name in "ab"))
    started: List["subprocess.Popen[bytes]"] = []
    if os.geteuid() == 0:
        os.makedirs("/run/sshd", 0o755, exist_ok=True)
    try:
        start(started, f"{keys}/log", find("sshd"), "-D", "-e", "-f", f"{keys}/server")
        wait_until(lambda: listens(port), "sshd")
        yield {}
    finally:
        end(started)


SLURM = """ClusterName=farm
SlurmctldHost={host}(127.0.0.1)
SlurmUser={user}
SlurmdUser={user}
SlurmctldPort={ports[0]}
SlurmdPort={ports[1]}
AuthType=auth/munge
AuthInfo=socket={folder}/munge.socket
StateSaveLocation={folder}/state
SlurmdSpoolDir={folder}/spool
SlurmctldPidFile={folder}/slurmctld.pid
SlurmdPidFile={folder}/slurmd.pid
SlurmctldLogFile={folder}/slurmctld.log
SlurmdLogFile={folder}/slurmd.log
ProctrackType=proctrack/linuxproc
TaskPlugin=task/none
SelectType=select/cons_tres
SelectTypeParameters=CR_CPU
MailProg=/bin/true
NodeName={host} NodeAddr=127.0.0.1 CPUs={count} State=UNKNOWN
PartitionName=all Nodes={host} Default=YES State=UP
"""


def runs_quietly(argv: List[str], settings: Dict[str, str]) -> bool:
    nothing = subprocess.DEVNULL
    return subprocess.run(argv, env=settings, stdout=nothing, stderr=nothing, check=False).returncode == 0


@contextlib.contextmanager
def slurm_cluster(suite: Suite, folder: str) -> Iterator[Dict[str, str]]:
    """A cluster of this machine alone."""
    cluster = f"{folder}/cluster"
    for name in ("", "/state", "/spool"):
        os.mkdir(f"{cluster}{name}", 0o755)
    with open(f"{cluster}/munge.key", "wb") as key:
        key.write(os.urandom(128))
    os.chmod(f"{cluster}/munge.key", 0o400)
    os.chmod(folder, 0o755)
    configuration = f"{cluster}/slurm.conf"
    write_text(configuration, SLURM.format(host=socket.gethostname().split(".")[0], user="root", folder=cluster,
                                      ports=free_ports(2), count=len(os.sched_getaffinity(0))))
    settings = {"SLURM_CONF": configuration}
    started: List["subprocess.Popen[bytes]"] = []
    names = [f"--{it}-file={cluster}/munge.{it}" for it in ("key", "pid", "log", "seed")]
    try:
        door = f"{cluster}/munge.socket"
        start(started, f"{cluster}/munged", find("munged"), "--foreground", "--force", f"--socket={door}", *names)
        wait_until(lambda: os.path.exists(door), "munged")
        start(started, f"{cluster}/controller", find("slurmctld"), "-D", "-f", configuration)
        start(started, f"{cluster}/node", find("slurmd"), "-D", "-f", configuration)
        wait_until(lambda: runs_quietly(["srun", "--immediate=2", "true"], {**os.environ, **settings}),
                   "a job of Slurm")
        yield settings
    finally:
        end(started)


# The recipes.

Context = Callable[["Farm", str], "contextlib.AbstractContextManager[Dict[str, str]]"]


class Recipe(NamedTuple):
    script: str
    tools: Tuple[str, ...]
    statuses: Callable[[str], Statuses]  # how the engine shows each test, from the folder
    wanted: Statuses
    around: Context = nothing_more
    needs: str = ""  # a command that has to succeed
    has_vendor: bool = True  # whether a test that was not recorded has a result


RECIPES = [
    Recipe("parallel.sh", ("parallel",), of_parallel, USUAL),
    Recipe("ssh.sh", ("parallel", "sshd", "ssh", "ssh-keygen"), of_parallel, USUAL, ssh_nodes),
    Recipe("slurm.sh", ("sbatch", "srun", "scontrol", "slurmctld", "slurmd", "munged"), of_slurm,
           {name: f"{'FAILED' if name != 'split' else 'COMPLETED'} {status}" for name, status in USUAL.items()},
           slurm_cluster, "test $(id -u) = 0"),
    Recipe("bubblewrap.sh", ("bwrap",), of_lines, USUAL, needs="bwrap --ro-bind / / --unshare-all true"),
    Recipe("network.sh", ("unshare",), of_lines, USUAL, needs="unshare --map-root-user --net true"),
    Recipe("traces.sh", ("bwrap",), of_lines,
           {"split": "0 0", "join": "0 1", "child": "0 1", "wait": "137 3", "vendor": "0 4"},
           needs="bwrap --ro-bind / / --unshare-all true", has_vendor=False),
]


class Result(NamedTuple):
    """What a file of JSON lines says of a test."""

    places: Set[Tuple[str, int]]
    is_complete: bool
    processes: int


def base_name(word: str) -> str:
    return os.path.basename(word).split(".")[0]


def read_result(path: str) -> Tuple[str, Result]:
    entries = [json.loads(line) for line in text_of(path).splitlines()]
    runs = [it for it in entries if it["type"] == "run"]
    processes = [it for it in entries if it["type"] == "process"]
    stacks = [it["stack"] for it in entries if it["type"] == "finding"]
    complete = all(not it["nothing"] and not it["timed_out"] for it in runs) and all(it["whole"] for it in processes)
    places = {(os.path.basename(stack[0]["file"]), stack[0]["line"]) for stack in stacks}
    return base_name(runs[0]["command"][-1]), Result(places, complete, len(processes))


def line_of_bug(file: str, words: str) -> int:
    lines = text_of(f"{FARMS}/project/{file}").splitlines()
    return next(number for number, line in enumerate(lines, 1) if words in line)


def expect_results(recipe: Recipe, paths: List[str]) -> None:
    """One result for each test, with the place of its bug and of no other."""
    results = dict(read_result(path) for path in paths)
    expect(sorted(results), sorted(it for it in TESTS if recipe.has_vendor or it != "vendor"), "tests with a result")
    bugs = {test: {(file, line_of_bug(file, words))} for test, file, words in BUGS}
    for test, result in results.items():
        expect(result.places, bugs.get(test, set()), f"{test}: places")
    expect(results["child"].processes, 2, "processes of child")
    expect([name for name in results if not results[name].is_complete],
           [name for name in results if name in ("wait", "vendor")], "incomplete")


def expect_merged(out: str, page: str, has_vendor: bool) -> None:
    """One report with both bugs, each with its line; and the program without a recorder, if its test has a result."""
    for _, file, words in BUGS:
        line = line_of_bug(file, words)
        expect(re.search(rf"#0 0x\w+ in \w+ \S*{file}:{line}:", out) is not None, True, f"{file}:{line}")
        expect_in(page, f"{file}:{line}")
    unchecked = r"; not checked: 1 program: \S*vendor \(not built with asancol-cc\)" if has_vendor else ""
    summary = rf"^asancol: 2 reports at 2 places; 5 processes in 5 runs, \d+ events; 1 INCOMPLETE{unchecked}$"
    expect(len(re.findall(summary, out, re.M)), 1, "summaries")


def check_recipe(suite: "Farm", folder: str, recipe: Recipe) -> None:
    why = why_not(recipe)
    if why:
        raise LeftOut(why)
    project = f"{folder}/project"
    shutil.copytree(f"{FARMS}/project", project)
    with recipe.around(suite, project) as settings:
        ran = ran_of(run(["sh", f"{FARMS}/{recipe.script}"], project, **suite.settings, **settings))
        try:
            expect(ran.status, 1)  # that of asancol-report
            expect(recipe.statuses(project), recipe.wanted, "statuses")
            expect_results(recipe, glob.glob(f"{project}/results/*.jsonl"))
            expect_merged(ran.out, text_of(f"{project}/report.html"), recipe.has_vendor)
        except (Failure, OSError, KeyError, IndexError) as error:
            raise Failure(f"{error!r}\n{ran.out[-2000:]}\n{ran.err[-3000:]}") from None


# What each script does as well, and the page says once: it builds the tests, makes a folder, goes over the tests, notes
# their statuses, and merges the results.
SAID_ONCE = ("make -f simple.mk\n", "mkdir -p ", "for test in ", "    echo ", "done\n", "asancol-report --html ")


def commands_of(script: str) -> str:
    """Returns what a script does, without the comment before it and what the page says once."""
    lines = text_of(f"{FARMS}/{script}").splitlines(True)
    return "".join(line for line in lines if not line.startswith(("#", *SAID_ONCE)))


def check_page(suite: Suite, folder: str, recipe: Recipe) -> None:
    """The page has the commands as they are."""
    expect_in(text_of(f"{TOP}/docs/FARMS.md"), f"```sh\n{commands_of(recipe.script)}```\n")


def check_commands(suite: Suite, folder: str) -> None:
    """The page has no others, and says what all scripts do."""
    page = text_of(f"{TOP}/docs/FARMS.md")
    blocks = re.findall(r"^```sh\n(.*?)^```\n", page, re.M | re.S)
    expect(sorted(blocks), sorted(commands_of(recipe.script) for recipe in RECIPES), "commands of the page")
    expect_in(page, "`asancol-report --html report.html results/*.jsonl`")


def find(tool: str) -> str:
    """Returns the path of a tool, or nothing. Daemons are not on the path of each user."""
    return shutil.which(tool, path=f"{os.environ.get('PATH', os.defpath)}:/usr/sbin:/sbin") or ""


def why_not(recipe: Recipe) -> str:
    """Returns why a recipe can't run here, or nothing."""
    for tool in recipe.tools:
        if not find(tool):
            return f"{tool} is not there"
    if recipe.needs and not runs_quietly(["sh", "-c", recipe.needs], dict(os.environ)):
        return f"`{recipe.needs}` fails"
    return ""


class Farm(Suite):
    """The tests, with the programs of this tree on the path."""

    def __init__(self, asancol: str, words: Sequence[str]) -> None:
        super().__init__(words)
        self.folder = tempfile.mkdtemp(prefix="asancol-tests-")
        signal.signal(signal.SIGTERM, lambda number, frame: sys.exit(143))
        self.settings = {
            "PATH": ":".join([*(f"{TOP}/{it}" for it in ("recorder", "recorder/cargo", "run", "report")),
                              os.environ.get("PATH", os.defpath)]),
            "ASANCOL": asancol,
            "ASANCOL_REPORT": REPORT,
        }
        self.test("page: no other commands", check_commands)
        for recipe in RECIPES:
            name = recipe.script.split(".")[0]
            self.test(f"page: {name}", check_page, recipe)
            self.test(f"recipe: {name}", check_recipe, recipe)
        ci.add_tests(self, self.folder, asancol)
        frameworks.add_tests(self, self.settings)
        switching.add_tests(self, self.settings)

    def clean_up(self) -> None:
        shutil.rmtree(self.folder, ignore_errors=True)


if __name__ == "__main__":
    sys.exit(suite.main(Farm, __doc__))
