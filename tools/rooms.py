"""Folders where mutants are checked.

Of each crate there is a base: its current text, and its checked files. A room is a
temporary copy of it with other texts, and shares the checked files. A check there is by the
toolchain's compiler itself, and not by `rt`, which would prove the crates below once more, and has
one check at a time of crates that stand on the same ones.
"""

import contextlib
import fcntl
import functools
import os
import re
import shutil
import subprocess
import tempfile
import time
from typing import Callable, Dict, Iterator, List, NamedTuple, Optional, TextIO, Tuple

import bodies
import gate
from files import is_repository
from gate import TOP
from rounds import Copy

PARTS = ("src", "specs", "proofs")

# Where a base has its crate's checked files.
CHECKED = "checked"

# The status of a check of a path that fits no function.
NO_SUCH_PATH = 2

# What a check prints when it is through with a function.
CHECKED_LINE = re.compile(r"checked (\S+), \d+ of ")


def crates_below(crate: str) -> List[str]:
    """Returns those of the repository that a crate stands on, lowest first."""
    listed = gate.crates_listed()
    needed = {crate}
    for name in reversed(gate.lowest_first(listed)):
        if name in needed:
            needed.update(it for it in listed[name] if it in listed)
    return [it for it in gate.lowest_first(listed) if it in needed - {crate}]


def git_folder() -> Optional[str]:
    """Returns the folder where git keeps what it knows of this tree, if it is a repository."""
    if not is_repository():
        return None
    argv = ["git", "rev-parse", "--absolute-git-dir"]
    ran = subprocess.run(argv, cwd=TOP, stdout=subprocess.PIPE, text=True, check=True)
    return ran.stdout.rstrip("\n")


@contextlib.contextmanager
def bases() -> Iterator[str]:
    """Gives the folder where all bases stand: in the folder of git, where they stay, or in a temporary
    one if the tree is no repository. One command has it at a time, and others wait."""
    git = git_folder()
    with contextlib.ExitStack() as stack:
        if git:
            top = f"{git}/asancol-checked"
        else:
            top = stack.enter_context(tempfile.TemporaryDirectory(prefix="asancol-checked-"))
        os.makedirs(top, exist_ok=True)
        lock = stack.enter_context(open(f"{top}/lock", "w", encoding="utf-8"))
        fcntl.flock(lock, fcntl.LOCK_EX)
        # A folder with this file is none where `rt ci` looks for crates of the repository.
        with open(f"{top}/MODULE.bazel", "w", encoding="utf-8"):
            pass
        for name in set(os.listdir(top)) - {*gate.crates_listed(), "lock", "MODULE.bazel"}:
            shutil.rmtree(f"{top}/{name}")
        yield top


class Libraries:
    """The libraries of crates, for checks of those above: as `rt ci` proves them beside this, or of
    these crates by `rt lib` if nothing says what that proves."""

    def __init__(self, all_bases: str, names: List[str], as_proved: Optional[TextIO]) -> None:
        self.folder = f"{all_bases}/libraries"
        shutil.rmtree(self.folder, ignore_errors=True)
        os.mkdir(self.folder)
        self.left = names
        self.as_proved = as_proved

    def next(self) -> Optional[str]:
        """Waits for one more library, and returns its crate's name, or None if no other comes."""
        for line in self.as_proved or ():
            if self.take(line.strip()):
                return line.strip()
        while self.left and not self.as_proved:
            name = self.left.pop(0)
            made = ran(["rt", "lib"], f"{TOP}/crates/{name}")
            if made.status == 0 and self.take(name):
                return name
            print("\n".join([*made.lines[-12:], f"{name}: it is not proved as it stands"]), flush=True)
        return None

    def take(self, name: str) -> bool:
        """Takes a crate's library from where it was made, if it is there."""
        made = f"{TOP}/crates/{name}/out/rlib/{name}.rlib"
        copy_folder(made, f"{self.folder}/{name}.rlib", link)
        return os.path.isfile(f"{self.folder}/{name}.rlib/format")


class Base:
    """A crate's current text, and its checked files, over the libraries below it."""

    def __init__(self, all_bases: str, crate: str) -> None:
        self.crate = crate
        self.below = crates_below(crate)
        self.libraries = f"{all_bases}/libraries"
        self.folder = f"{all_bases}/{crate}"
        self.modules: Dict[str, Tuple[int, int, int]] = {}
        os.makedirs(self.folder, exist_ok=True)
        for name in set(os.listdir(self.folder)) - {CHECKED}:
            shutil.rmtree(f"{self.folder}/{name}")
        for part in PARTS:
            copy_folder(f"{TOP}/crates/{crate}/{part}", f"{self.folder}/{part}")

    def files(self) -> List[str]:
        """Returns all files that a check of the crate reads, in order."""
        tops = [f"{TOP}/crates/{it}/{part}" for it in [self.crate, *self.below] for part in PARTS]
        walked = [(at, names) for top in tops for at, _, names in os.walk(top)]
        return sorted(f"{at}/{it}" for at, names in walked for it in names)

    def prove(self, paths: Optional[List[str]]) -> "Ran":
        """Checks what these paths name and all that it rests on, or without them the whole crate, as
        also if a check prints one of them otherwise. It begins with the files that `rt` checked in the repository, or
        else with those checked here."""
        by_rt = f"{TOP}/crates/{self.crate}/out/incremental"
        if os.path.isdir(by_rt):
            copy_folder(by_rt, f"{self.folder}/{CHECKED}", link)
        os.makedirs(f"{self.folder}/{CHECKED}", exist_ok=True)
        made = self.check(self.folder, paths)
        if made.status == NO_SUCH_PATH:
            made = self.check(self.folder, None)
        self.modules = listing(self.folder)
        return made

    def check(self, folder: str, paths: Optional[List[str]]) -> "Ran":
        """Checks a copy of the crate, or what these paths name there. What proves the crates above
        comes before it."""
        only = [it for path in paths or () for it in ("--only", path)]
        words = [*self.words(), "--incremental", CHECKED, "--jobs", "1", "--progress", *only]
        return ran(["nice", "-n", "10", f"{toolchain()}/bin/rattle", "check", *words], folder)

    def words(self) -> List[str]:
        """Returns the words that name the crate and what it stands on."""
        kit, listed = toolchain(), gate.crates_listed()
        root = "src/main.rt" if os.path.isfile(f"{self.folder}/src/main.rt") else "src/lib.rt"
        found = ["--crate-name", self.crate, root]
        for name in ["std", *listed[self.crate]]:
            folder = self.libraries if name in listed else f"{kit}/rlibs"
            found += ["--extern", f"{name}={folder}/{name}.rlib"]
        for folder in (self.libraries, f"{kit}/rlibs"):
            found += ["-L", f"dependency={folder}"]
        found += ["--antt-project", f"{kit}/rattle/logic/antt-project.json"]
        return [*found, "--logic-built", f"{kit}/logic_built"]

    def is_unchanged(self) -> bool:
        """Returns whether each checked module is as it was: the rooms share their files."""
        return listing(self.folder) == self.modules

    @contextlib.contextmanager
    def room(self, texts: Dict[str, str], copies: List[Copy]) -> Iterator[str]:
        """Makes a copy with other texts in it, and gives its folder."""
        with tempfile.TemporaryDirectory(prefix="asancol-mutants-") as room:
            shutil.copytree(self.folder, room, copy_function=link, dirs_exist_ok=True)
            for path, text in texts.items():
                write(f"{room}/{path}", text)
            for copy in copies:
                for old, new in copy.proof_folders():
                    copy_proofs(f"{room}/proofs", old, new)
            yield room


@functools.lru_cache(maxsize=None)
def toolchain() -> str:
    """Returns the toolchain's folder: that of its first page."""
    ran = subprocess.run(["rt", "doc"], stdout=subprocess.PIPE, text=True, check=True)
    return os.path.dirname(ran.stdout.split("\n")[0])


def copy_folder(one: str, other: str, copy: Callable[[str, str], object] = shutil.copy2) -> None:
    """Copies a folder in another's place, if it is there."""
    shutil.rmtree(other, ignore_errors=True)
    if os.path.isdir(one):
        shutil.copytree(one, other, copy_function=copy)


def link(one: str, other: str) -> None:
    """Gives a checked module, or a file of a library, a second name: a check makes such a file anew
    and never writes into it. Other files are copied."""
    try:
        if ".rlib/" in one or one.endswith(".oantt"):
            os.link(one, other)
            return
    except OSError:
        pass
    shutil.copy2(one, other)


def listing(folder: str) -> Dict[str, Tuple[int, int, int]]:
    """Returns what tells whether a checked module of a crate was changed, lost or added."""
    walked = [f"{at}/{it}" for at, _, names in os.walk(f"{folder}/{CHECKED}") for it in names]
    stats = {it: os.lstat(it) for it in walked if it.endswith(".oantt")}
    return {it: (st.st_ino, st.st_size, st.st_mtime_ns) for it, st in stats.items()}


def write(path: str, text: str) -> None:
    """Writes a file anew: the old one may be shared."""
    with contextlib.suppress(FileNotFoundError):
        os.remove(path)
    with open(path, "w", encoding="utf-8") as file:
        file.write(text)


def copy_proofs(top: str, old: str, new: str) -> None:
    """Copies a function's proof files, which name the module that they stand in."""
    shutil.copytree(f"{top}/{old}", f"{top}/{new}")
    module = re.compile(rf"\.proofs\.{re.escape(old.replace('/', '.'))}(?![\w'-])")
    for at, _, files in os.walk(f"{top}/{new}"):
        for file in files:
            text = bodies.read(f"{at}/{file}")
            write(f"{at}/{file}", module.sub(f".proofs.{new.replace('/', '.')}", text))


class Ran(NamedTuple):
    """A command that has ended: its status, the processor seconds that it took, what it printed,
    and after how many seconds it was through with each function, from the one before on. A message
    is one line, whatever stood below it."""

    status: int
    seconds: float
    lines: List[str]
    each: Dict[str, float]


def ran(argv: List[str], folder: str) -> Ran:
    printed: List[str] = []
    each: Dict[str, float] = {}
    pipe, joined, none = subprocess.PIPE, subprocess.STDOUT, subprocess.DEVNULL
    with subprocess.Popen(argv, cwd=folder, stdin=none, stdout=pipe, stderr=joined) as command:
        last = time.monotonic()
        for line in command.stdout or ():
            printed.append(line.decode(errors="replace"))
            checked = CHECKED_LINE.match(printed[-1])
            if checked:
                each[checked[1]], last = time.monotonic() - last, time.monotonic()
        _, status, used = os.wait4(command.pid, 0)
        command.returncode = os.WEXITSTATUS(status) if os.WIFEXITED(status) else -1
    lines = re.sub(r"\n +", " ", "".join(printed)).split("\n")
    return Ran(command.returncode, used.ru_utime + used.ru_stime, lines, each)
