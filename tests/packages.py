#!/usr/bin/env python3
"""Builds the archive of the sources and the package for Debian, and uses them; looks at pages and completions, and at
what maintainers run, and at what `make test` says.

usage: tests/packages.py [--list] [--junit FILE] ASANCOL [WORD..]

With words, only tests whose names have one of them are run. The last line is 'N passed, M failed', and the status is 1
if a test failed. What needs a program that is not there is left out, and it says which. Nothing is installed outside of
a folder in the one for temporary files.
"""

import hashlib
import os
import re
import shutil
import subprocess
import sys
import tarfile
from typing import Callable, List, Sequence, Tuple

sys.path.insert(0, f"{os.path.dirname(os.path.realpath(__file__))}/..")  # where `testing` is

import completions
import maintaining
import test_quick
from completions import HELP, TOP, text_of
from files import files_of_tree, is_repository
from testing import Failure, LeftOut, Ran, Suite, environment, expect, suite
from testing.programs import call, path_without, ran_of


# The page that `make docs` makes, and nobody commits.
MADE = "docs/CALLS.md"


def run(argv: List[str], folder: str = TOP, **settings: str) -> Ran:
    """Runs a command, in an environment that says nothing to make or to asancol."""
    return ran_of(call(argv, cwd=folder, env=environment("MAKE", "MFLAGS", "GIT_", **settings), capture_output=True,
                       stdin=subprocess.DEVNULL))


def must(argv: List[str], folder: str = TOP, **settings: str) -> str:
    """Runs a command that has to end with status 0, and returns what it prints."""
    ran = run(argv, folder, **settings)
    if ran.status:
        raise Failure(f"{' '.join(argv)}: status {ran.status}: {ran.err[-1000:]}")
    return ran.out


def sum_of(path: str) -> str:
    with open(path, "rb") as file:
        return hashlib.sha256(file.read()).hexdigest()


def release() -> str:
    return text_of("VERSION").strip()


def programs_say_the_release(program: str, _: str) -> None:
    for path in (program, *(f"{TOP}/{it}/asancol-{it}" for it in ("run", "report", "listen"))):
        name = os.path.basename(path)
        expect(must([path, "--version"]), f"{name} {release()}\n", name)


# The archive of the sources.


def archive_of(folder: str) -> str:
    """Makes the archive in a folder, and returns its path."""
    must([f"{TOP}/packaging/dist.py", folder])
    return f"{folder}/asancol-{release()}.tar.gz"


def archive_is_the_same(_: str, folder: str) -> None:
    """It has the committed files, and the generated page, whoever makes it and whenever."""
    first = sum_of(archive_of(folder))
    archive = archive_of(folder)
    expect(sum_of(archive), first, "the archive, once more")
    front = f"asancol-{release()}/"
    with tarfile.open(archive) as members:
        files = {it.name[len(front) :] for it in members.getmembers() if not it.isdir()}
        expect({(it.uid, it.gid, it.uname) for it in members.getmembers()}, {(0, 0, "root")}, "owners")
        expect(len({it.mtime for it in members.getmembers()}), 1, "times")
    committed = must(["git", "ls-tree", "-r", "--name-only", "-z", "HEAD"]).split("\0")
    expect(files, set(committed) - {""} | {MADE}, "files")


def archive_is_enough(program: str, folder: str) -> None:
    """Unpacked, it builds and tests without git, and the package can be made of it."""
    must(["tar", "xf", archive_of(folder)], folder)
    top = f"{folder}/asancol-{release()}"
    no_git = {"PATH": path_without("git", folder)}
    files = sorted(must(["find", ".", "-type", "f", "-printf", "%P\\n"], top).splitlines())
    must(["make", "-s", "-j4", "recorder", "run"], top, **no_git)
    line = "import files; print('\\n'.join(files.files_of_tree()))"
    seen = must([sys.executable, "-c", line], f"{top}/tools", **no_git)
    expect(seen.splitlines(), [it for it in files if it != MADE], "the files of the tree after a build")
    if shutil.which("rt"):
        expect(must([f"{top}/tools/lint_tree.py"], top, **no_git), "lint: nothing found\n", "lint")
    shutil.copy(program, f"{top}/asancol")
    os.utime(f"{top}/asancol")
    must(["make", "-q", "asancol"], top, **no_git)
    must([f"{top}/run/tests/check.py", f"{top}/asancol", "help"], top, **no_git)
    if shutil.which("dpkg-deb"):
        must(["make", "-s", "deb"], top, **no_git)


def dead_links(pages: str) -> List[str]:
    """Returns the links of pages to files that are not there."""
    dead = []
    for place, _, names in os.walk(pages):
        for name in (it for it in names if it.endswith(".md")):
            with open(f"{place}/{name}", encoding="utf-8") as page:
                links = re.findall(r"\]\((?!https?:|#)([^)#\s]+)", page.read())
            dead += [f"{name}: {it}" for it in links if not os.path.exists(f"{place}/{it}")]
    return dead


def what_is_installed_goes_again(_: str, folder: str) -> None:
    argv = [f"DESTDIR={folder}", "PREFIX=/usr"]
    must(["make", "-s", "install", *argv])
    expect(os.path.isfile(f"{folder}/usr/bin/asancol"), True, "that it is installed")
    pages = f"{folder}/usr/share/doc/asancol"
    calls = must(["cat", f"{pages}/docs/CALLS.md"])
    expect("| `memcpy`, `mempcpy` | " in calls, True, "the list of calls")
    named = [*(f"docs/{it}.md" for it in ("ASAN", "REPORTS", "inside/MODEL")), "examples/bug.c"]
    expect([it for it in named if not os.path.isfile(f"{pages}/{it}")], [], "pages that are missing")
    expect(dead_links(pages), [], "dead links")
    must(["make", "-s", "uninstall", *argv])
    left = [f"{place}/{name}" for place, _, names in os.walk(folder) for name in names]
    expect(left, [], "what is left")


def programs_stay_small(_: str, folder: str) -> None:
    """Installed files have no debug information, which would come into each program; a bug's lines are there."""
    sizes = []
    for asked in ("", "DEBUG=1"):
        place = f"{folder}/{asked}"
        must(["make", "-s", "install-recorder", f"PREFIX={place}", *filter(None, [asked])])
        must([f"{place}/bin/asancol-cc", "-g", "examples/bug.c", "-o", f"{place}/bug"])
        sizes.append(os.path.getsize(f"{place}/bug"))
    expect((sizes[0] < 550_000, sizes[1] > 2 * sizes[0]), (True, True), f"bytes of a program: {sizes}")


def says_what_is_missing(_: str, folder: str) -> None:
    """Without the toolchain make says that it is missing, and that the recorder needs none."""
    must(["tar", "xf", archive_of(folder)], folder)
    top = f"{folder}/asancol-{release()}"
    ran = run(["make", "-s"], top, PATH=path_without("rt", folder))
    said = "recorder run" in ran.err and "toolchain" in ran.err
    expect((ran.status, said), (2, True), f"make without rt: {ran.err}")


# The package.


def package_of(folder: str) -> str:
    """Makes the package in a folder, and returns its path."""
    return f"{folder}/{must([f'{TOP}/packaging/deb.py', folder]).strip()}"


def package_is_the_same(_: str, folder: str) -> None:
    first = sum_of(package_of(folder))
    expect(sum_of(package_of(folder)), first, "the package, once more")


def package_has_no_error(_: str, folder: str) -> None:
    """Lintian sees no error. That there is no licence yet it does not ask."""
    ran = run(["lintian", "--allow-root", "--fail-on", "error", package_of(folder)])
    expect((ran.status, re.findall(r"^E: .*", ran.out, re.M)), (0, []), "lintian")


class Root:
    """A folder in which dpkg installs, as if it were the root."""

    def __init__(self, folder: str) -> None:
        self.folder = f"{folder}/root"
        for name in ("info", "updates", "triggers"):
            os.makedirs(f"{self.folder}/var/lib/dpkg/{name}")
        for name in ("status", "available"):
            with open(f"{self.folder}/var/lib/dpkg/{name}", "w", encoding="utf-8"):
                pass

    def dpkg(self, *argv: str) -> None:
        """Runs dpkg. The scripts of the package run too, and find the folder in DPKG_ROOT."""
        forced = "--force-script-chrootless,not-root,depends,bad-path"
        must(["dpkg", f"--root={self.folder}", forced, "--log=/dev/null", *argv])

    def files(self) -> List[str]:
        """Returns the paths of all that is there except what dpkg notes of itself."""
        found = []
        for at, folders, names in os.walk(self.folder):
            place = os.path.relpath(at, self.folder)
            if place == "var/lib/dpkg":
                folders[:] = ["info"]
                continue
            found += [os.path.normpath(f"{place}/{name}") for name in folders + names]
        return sorted(it for it in found if it != "var/lib/dpkg/info/format")


def package_finds_a_bug(_: str, folder: str) -> None:
    """It installs, finds the first bug, and leaves nothing when it is purged; other installed files stay unchanged."""
    root = Root(folder)
    before = root.files()
    root.dpkg("--install", package_of(folder))
    programs = f"{root.folder}/usr/bin"
    # As where py3compile is not there, and root runs asancol-report.
    shutil.rmtree(f"{root.folder}/usr/lib/asancol/asancol_report/__pycache__", ignore_errors=True)
    installed = root.files()
    must([f"{programs}/asancol-cc", "-g", "examples/bug.c", "-o", f"{folder}/bug"])
    ran = run([f"{programs}/asancol-run", "--", f"{folder}/bug", "Alice"])
    expect((ran.status, ran.out), (99, "Alice\n"), ran.err)
    for text in ("heap-buffer-overflow: store", "in main", "examples/bug.c:11", "allocated at", "examples/bug.c:10"):
        expect(text in ran.err, True, f"{text} in {ran.err}")
    with open(f"{folder}/bug.cpp", "w", encoding="utf-8") as file:
        file.write("int main(int count, char **) { int *one = new int[1]; return one[count]; }\n")
    must([f"{programs}/asancol-c++", "-g", f"{folder}/bug.cpp", "-o", f"{folder}/bug"])
    expect(run([f"{programs}/asancol-run", "-q", "--", f"{folder}/bug"]).status, 99, "by asancol-c++")
    for name in ("asancol", "asancol-run", "asancol-report", "asancol-listen"):
        expect(must([f"{programs}/{name}", "--version"]), f"{name} {release()}\n", name)
    expect(root.files(), installed, "what the programs have left there")
    # As after an older release of the package, which let Python write there.
    os.mkdir(f"{root.folder}/usr/lib/asancol/asancol_report/__pycache__")
    root.dpkg("--purge", "asancol")
    expect(root.files(), before, "what is left")


def package_is_whole(_: str, folder: str) -> None:
    """Pages, completions and documents are where they are looked for."""
    must(["dpkg-deb", "-x", package_of(folder), folder])
    wanted = [f"lib/asancol/libasancol_{it}.a" for it in ("record", "static", "shared", "first", "first_static", "cxx")]
    wanted += ["lib/asancol/no-second-allocator.ld", "lib/asancol/cold_reports.h", "lib/asancol/clang_intrinsics.h",
               "lib/asancol/cxx/libc++/__config"]
    wanted += ["lib/asancol/cxx/libstdc++/bits/basic_string.tcc", "lib/asancol/libasancol_preload.so"]
    wanted += ["lib/asancol/include/asancol/googletest.h"]
    wanted += [f"lib/asancol/for-{it}/libasancol_before_libasan.so" for it in ("x86_64", "haswell", "i686")]
    wanted += ["lib/asancol/cargo/rustc", "lib/asancol/cargo/rustdoc"]
    for name in completions.PROGRAMS:
        wanted += [f"share/bash-completion/completions/{name}", f"share/zsh/vendor-completions/_{name}"]
        wanted.append(f"share/fish/vendor_completions.d/{name}.fish")
    for name in (*completions.PROGRAMS, "asancol-cc", "asancol-c++", "asancol-fc", "asancol-gcc", "asancol-g++",
                 "asancol-clang", "asancol-clang++", "asancol-g++-11", "asancol-clang-19", "asancol-cargo"):
        wanted += [f"bin/{name}", f"share/man/man1/{name}.1.gz"]
    wanted += [f"share/man/man5/asancol-{it}.5.gz" for it in ("trace", "results")]
    found = r"(README|CONTRIBUTING|docs/.+)\.md|examples/.*"
    documents = [it for it in files_of_tree() if re.fullmatch(found, it)]
    documents += [MADE, "changelog.gz", "changelog.Debian.gz", "copyright"]
    wanted += [f"share/doc/asancol/{it}" for it in documents]
    modules = [it for it in files_of_tree() if re.fullmatch(r"report/asancol_report/.*", it)]
    wanted += [f"lib/asancol/{it[len('report/') :]}" for it in modules]
    expect([it for it in wanted if not os.path.isfile(f"{folder}/usr/{it}")], [], "missing")
    expect(dead_links(f"{folder}/usr/share/doc/asancol"), [], "dead links")
    expect("no licence" in must(["cat", f"{folder}/usr/share/doc/asancol/copyright"]), True, "copyright")
    if shutil.which("man"):
        shown = must(["man", f"{folder}/usr/share/man/man1/asancol-c++.1.gz"], folder, LC_ALL="C")
        expect(f"asancol {release()}" in shown and "ASANCOL-CC(1)" in shown, True, "the page of asancol-c++")


def archive_works_elsewhere(_: str, folder: str) -> None:
    """The archive of the build is the same each time, and is used where it is unpacked, also below a blank."""
    made = f"{folder}/{must([f'{TOP}/packaging/tarball.py', folder]).strip()}"
    first = sum_of(made)
    must([f"{TOP}/packaging/tarball.py", folder])
    expect(sum_of(made), first, "the archive, once more")
    os.mkdir(f"{folder}/some where")
    must(["tar", "xf", made, "-C", f"{folder}/some where"])
    programs = f"{folder}/some where/asancol-{release()}/bin"
    must([f"{programs}/asancol-cc", "-g", "examples/bug.c", "-o", f"{folder}/bug"])
    ran = run([f"{folder}/bug", "Alice"], ASANCOL_RUN="")
    expect((ran.status, ran.out, "examples/bug.c:11" in ran.err), (99, "Alice\n", True), ran.err)


# On a machine with nothing: the commands that README begins with, and its own tests of a project.
ON_BARE = """
export DEBIAN_FRONTEND=noninteractive
cd /root
apt-get -q update && apt-get -q install --yes ./asancol_*.deb g++ clang make || exit 3
cp -r /usr/share/doc/asancol/examples .
asancol-cc -g examples/bug.c -o bug || exit 4
./bug Alice 2> bug.txt
[ $? = 99 ] && grep 'examples/bug.c:11' bug.txt && grep 'examples/bug.c:12' bug.txt || exit 5
asancol-run --doctor || exit 6
make -C examples/farms/project -f simple.mk split join || exit 7
asancol-run -- examples/farms/project/split && ! asancol-run -- examples/farms/project/join || exit 8
apt-get -q purge --yes asancol || exit 9
rm -r /root/*
! find / -xdev -name '*asancol*' -not -path '/var/log/*' | grep . || exit 10
"""


def bare_machine(_: str, folder: str, release_of_debian: str) -> None:
    """A minimal system of Debian gets the package and a compiler, finds the bugs, and has nothing of it at the end."""
    root = f"{folder}/root"
    must(["mmdebstrap", "--variant=minbase", "--format=directory", release_of_debian, root])
    shutil.copy(f"{folder}/{os.path.basename(package_of(folder))}", f"{root}/root")
    argv = ["unshare", "--mount", "--pid", "--fork", f"--mount-proc={root}/proc", "chroot", root, "sh", "-c", ON_BARE]
    ran = run(argv, ASANCOL_RUN="")
    expect(ran.status, 0, f"{ran.out[-3000:]}{ran.err[-3000:]}")


def on_bookworm(program: str, folder: str) -> None:
    bare_machine(program, folder, "bookworm")


def on_trixie(program: str, folder: str) -> None:
    bare_machine(program, folder, "trixie")


# What a test needs that installs: ./asancol, up to date.
BUILT = "./asancol"

# Name, what it does with a built asancol and a folder for itself, and what it needs.
TESTS: List[Tuple[str, Callable[[str, str], None], Tuple[str, ...]]] = [
    ("release", programs_say_the_release, (HELP,)),
    ("archive: the same", archive_is_the_same, ("git",)),
    ("archive: enough", archive_is_enough, ("git", "cc")),
    ("make: install and uninstall", what_is_installed_goes_again, (BUILT, "cc", "c++")),
    ("make: small programs", programs_stay_small, ("cc",)),
    ("make: without the toolchain", says_what_is_missing, ("git", "cc")),
    ("package: the same", package_is_the_same, (BUILT, "dpkg-deb", "dpkg-shlibdeps")),
    ("package: lintian", package_has_no_error, (BUILT, "dpkg-deb", "dpkg-shlibdeps", "lintian")),
    ("package: whole", package_is_whole, (BUILT, "dpkg-deb", "dpkg-shlibdeps")),
    ("package: a bug", package_finds_a_bug, (BUILT, "dpkg-deb", "dpkg-shlibdeps", "dpkg", "cc", "c++")),
    ("archive of the build", archive_works_elsewhere, (BUILT, "cc")),
]

# Minutes each, most of them for Debian's archive: only if a word asks for them.
BARE = "bare machine"
BARE_TESTS = [
    (f"{BARE}: bookworm", on_bookworm, (BUILT, "mmdebstrap", "dpkg-shlibdeps")),
    (f"{BARE}: trixie", on_trixie, (BUILT, "mmdebstrap", "dpkg-shlibdeps")),
]


def left_out(needed: Tuple[str, ...], program: str) -> str:
    """Returns why a test is left out, or nothing."""
    if "git" in needed and not is_repository():
        return "this is no repository"
    if BUILT in needed and run(["make", "-q", "asancol"]).status:
        return "there is no ./asancol that is up to date"
    if HELP in needed and run([program, HELP]).status:
        return "the program is a fake, which has no help"
    return ", ".join(f"{it} is not there" for it in needed if it not in (BUILT, HELP) and not shutil.which(it))


def check(suite: Suite, folder: str, test: Callable[[str, str], None], program: str, needed: Tuple[str, ...]) -> None:
    why = left_out(needed, program)
    if why:
        raise LeftOut(why)
    test(program, folder)


class Packages(Suite):
    """The tests, one after the other: they make things in this tree."""

    most = 1

    def __init__(self, program: str, words: Sequence[str]) -> None:
        super().__init__(words)
        of_words = [(name, lambda program, _, test=test: test(program), it)
                    for name, test, it in [*completions.TESTS, *test_quick.TESTS]]
        bare = BARE_TESTS if any(it.startswith(BARE) for it in words) else []
        for name, test, needed in [*of_words, *TESTS, *bare, *maintaining.TESTS]:
            self.test(name, check, test, program, needed)


if __name__ == "__main__":
    sys.exit(suite.main(Packages, __doc__))
