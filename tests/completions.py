"""The manual pages and the completions of all programs, and the tables of options that they are made of."""

import itertools
import os
import re
import shutil
import subprocess
import tempfile
from typing import Callable, Dict, List, Tuple

from testing import TOP, expect
from testing.programs import call

# The programs that have completions.
PROGRAMS = ("asancol", "asancol-run", "asancol-report", "asancol-listen")

# The words typed after the name of a program, in a folder with run.trace, result.jsonl and a folder results, and one of
# the words that are offered.
OFFERED: Dict[str, List[Tuple[List[str], str]]] = {
    "asancol": [
        ([""], "serve"),
        (["--v"], "--version"),
        (["help", "c"], "check"),
        (["check", "--verb"], "--verbose"),
        (["check", "--limit", "5", "--wo"], "--workers"),
        (["check", "run"], "run.trace"),
        (["serve", "--rea"], "--ready"),
        (["serve", "--ready", "run"], "run.trace"),
    ],
    "asancol-run": [
        (["--incompl"], "--incomplete-exitcode"),
        (["-q", "--htm"], "--html"),
        (["--color", ""], "always"),
        (["--exitcode", "5", "en"], "env"),
        (["--", "en"], "env"),
        (["ls", "resu"], "result.jsonl"),
        (["--json", "resu"], "result.jsonl"),
    ],
    "asancol-report": [
        (["--su"], "--suppressions"),
        (["--unchecked", ""], "error"),
        (["--baseline", "resu"], "result.jsonl"),
        (["--quiet", ""], "result.jsonl"),
        (["--trace", ""], "run.trace"),
    ],
    "asancol-listen": [
        (["--conn"], "--connections"),
        (["--mode", "660", "socket", "resu"], "results"),
        (["socket", "results", "en"], "env"),
        (["--", "socket", "results", "en"], "env"),
        (["socket", "results", "ls", "resu"], "result.jsonl"),
    ],
}

# Words that are not offered.
WITHHELD: Dict[str, List[Tuple[List[str], str]]] = {
    "asancol": [(["check", "--"], "--count"), (["serve", "--"], "--verbose"), (["serve", "--"], "--version")],
    "asancol-run": [(["ls", "--"], "--html"), (["--wait", ""], "result.jsonl")],
    "asancol-report": [(["--"], "--nested")],
    "asancol-listen": [(["socket", "results", "ls", "--"], "--connections"), (["--mode", ""], "result.jsonl")],
}

# The text replaced in options/asancol-run.options, its replacement, and the option and the words by which that is
# refused.
MISTAKES = [
    ("Takes: a number, 0 to 255", "Takes: a number, 300", "--exitcode N: this is nothing that an option takes"),
    ("Takes: as asancol check", "Takes: as asancol", "--quarantine B: it takes what a program takes that has no such"),
    ("Default: 99", "Default: 999", "--exitcode N: its default is not in its range"),
    ("Sets: quiet", "Set: quiet", "-q, --quiet: Set is no key of it"),
    ("Sets: quiet", "Sets: quiet\nSets: live", "-q, --quiet: this is no line of a block, or it is there twice"),
    ("Option: --keep DIR", "Option: --keep", "--keep: it has a value and takes none"),
    ("Option: -v, --verbose", "Option: -q, --verbose", "-q, --verbose: asancol-run has it twice, or its letter"),
    ("Group of asancol-run: Checking and others", "Group of asancol-run: Checking",
     "--quarantine B: asancol-run has no group Checking"),
    ("Group of asancol-report: Text\n", "", "--no-machines: no program has it"),
    (", asancol-report: Output files", ": Output files", "--json FILE: asancol-report has no such option"),
    ("Help: write all lines here", "# ", "--log-file FILE: it has no Help or no Page for asancol-run"),
    ("Help: print a line for each process", f"Help: {'x' * 54}",
     "asancol-run: its help has 50 lines of at most 50, and 1 too wide"),
]

# Each prints the completions by the file $1 for the words after it, of which the first is the program.
BASH = r"""
source "$1" && shift
COMP_WORDS=("$@") COMP_CWORD=$(($# - 1))
function=$(complete -p -- "$1") function=${function##*-F } function=${function% *}
"$function" "$1" "${COMP_WORDS[COMP_CWORD]}" "${COMP_WORDS[COMP_CWORD - 1]}" 2> /dev/null
printf '%s\n' "${COMPREPLY[@]}"
"""
FISH = r"""
source $argv[1]
complete -C (string join ' ' -- $argv[2..]) | string replace -r '\t.*' ''
"""
# A shell at a terminal, in which the key Tab is pressed.
ZSH = r"""
zmodload zsh/zpty
zpty shell zsh -f -i
zpty -w shell "PROMPT=; autoload -U compinit; compinit -u -D; _it() { source $1 }; compdef _it $2"
zpty -w shell 'compadd() {
    local -a hits
    [[ ${@[1,(i)(-|--)]} == *-(O|A|D)\ * ]] || builtin compadd -A hits "$@"
    (( $#hits )) && print -rl -- "HIT:"${^hits}
    builtin compadd "$@"
}'
zpty -w shell 'bindkey "^I" complete-word; finish() { print END; exit }; comppostfuncs=(finish); print REA"DY"'
zpty -r shell seen '*READY*'
shift
zpty -w -n shell "$*"$'\t'
zpty -r shell seen '*END*'
print -r -- $seen | tr -d '\r' | sed -n 's/^.*HIT://p'
"""
SHELLS = {
    "bash": ["bash", "--norc", "-c", BASH, "bash"],
    "fish": ["fish", "--no-config", "-c", FISH],
    "zsh": ["zsh", "-f", "-c", ZSH, "zsh"],
}

PAGES = (
    "man/asancol.1", "man/asancol-trace.5",
    "man/asancol-cc.1", "man/asancol-run.1", "man/asancol-report.1",
    "man/asancol-results.5", "man/asancol-listen.1", "man/asancol-cargo.1",
)


def output_of(argv: List[str], folder: str = TOP) -> str:
    ran = call(argv, cwd=folder, stdout=subprocess.PIPE, text=True, timeout=60, check=False)
    return ran.stdout


def text_of(path: str) -> str:
    with open(f"{TOP}/{path}", encoding="utf-8") as file:
        return file.read()


def tables_are_made(program: str) -> None:
    """The files generated from the tables of options are there, and the help of asancol has what its table has."""
    expect(output_of([f"{TOP}/options/make.py", "--check", program]), "", "options/make.py --check")


def mistakes_are_refused(_: str) -> None:
    """A mistake in a table is said with its option, and nothing is made."""
    for old, new, said in MISTAKES:
        with tempfile.TemporaryDirectory() as folder:
            for part in ("options", "man", "run", "report", "listen"):
                shutil.copytree(f"{TOP}/{part}", f"{folder}/{part}", ignore=shutil.ignore_patterns("tests", "out"))
            path = f"{folder}/options/asancol-run.options"
            text = text_of("options/asancol-run.options")
            with open(path, "w", encoding="utf-8") as file:
                file.write(text.replace(old, new, 1))
            ran = call([f"{folder}/options/make.py"], capture_output=True, text=True, check=False)
            expect((old in text, ran.returncode, ran.stdout, said in ran.stderr), (True, 1, "", True), ran.stderr)
            expect(os.path.exists(f"{folder}/completions"), False, "that something was made")


def sample_is_printed(program: str) -> None:
    """The commands of the page on traces print what it says."""
    blocks = re.findall(r"^\.Bd -literal.*?\n(.*?)^\.Ed", text_of("man/asancol-trace.5"), re.M | re.S)
    script, wanted = (it.replace("\\e", "\\") for it in blocks)
    with tempfile.TemporaryDirectory() as folder:
        path = f"{os.path.dirname(os.path.abspath(program))}:{os.environ['PATH']}"
        argv = ["env", f"PATH={path}", "sh", "-c", script]
        expect(output_of(argv, folder), wanted, "what the sample prints")


def settings_are_there(_: str) -> None:
    """Each variable and option that the recorder and the wrappers read is in the page of the wrappers."""
    sources = text_of("recorder/environment/settings.c") + text_of("recorder/wrapper/fronts.def")
    known = set(re.findall(r'"(ASANCOL_\w+)"', sources))
    of_run = {"ASANCOL_REPORT", "ASANCOL_SYMBOLIZER", "ASANCOL_OUTER"}
    page = set(re.findall(r"ASANCOL_\w+", text_of("man/asancol-cc.1")))
    expect(page, known - of_run, "variables")
    options = re.findall(r"^\.It Fl -(asancol-[\w-]+)", text_of("man/asancol-cc.1"), re.M)
    expect(options, re.findall(r'"--(asancol-[\w-]+)', text_of("recorder/wrapper/command.c")), "options")


def results_are_described(_: str) -> None:
    """Each field that is written as JSON lines is in the page on them."""
    source = text_of("report/asancol_report/json_lines.py").partition("# Reading.")[0]
    found = re.findall(r'"(\w+)":|\["(\w+)"\]|\("(\w+)", \w+\.|, (\w+)=[a-z]', source)
    fields = {"".join(it) for it in found} - {"separators", "maxsize", "typed"}
    expect({"events", "build_id", "unchecked_more", "freed", "blocks"} <= fields, True, f"fields: {sorted(fields)}")
    page = set(re.findall(r"\w+", re.sub(r"\\f[BIP]", "", text_of("man/asancol-results.5"))))
    expect(sorted(fields - page), [], "fields that the page does not have")


def pages_have_no_flaw(_: str) -> None:
    """Man sees no flaw in a page, as wide as a terminal and as lintian has it."""
    for page, width in itertools.product(PAGES, ("80", "120")):
        argv = ["man", "-l", "--warnings", "-E", "UTF-8", "-Tutf8", page]
        ran = call(argv, cwd=TOP, env={**os.environ, "MANWIDTH": width}, check=False,
                   stdout=subprocess.DEVNULL, stderr=subprocess.PIPE)
        expect((ran.returncode, ran.stderr), (0, b""), page)


def mandoc_sees_no_flaw(_: str) -> None:
    """Mandoc warns of nothing in a page."""
    for page in PAGES:
        argv = ["mandoc", "-Tlint", "-Wwarning", page]
        ran = call(argv, cwd=TOP, stdout=subprocess.PIPE, stderr=subprocess.STDOUT, check=False)
        expect((ran.returncode, ran.stdout), (0, b""), page)


def offers(shell: str) -> Callable[[str], None]:
    def test(_: str) -> None:
        with tempfile.TemporaryDirectory() as folder:
            for name in ("run.trace", "result.jsonl"):
                os.mknod(f"{folder}/{name}")
            os.mkdir(f"{folder}/results")
            for rows, is_offered in ((OFFERED, True), (WITHHELD, False)):
                for program, argv, word in ((it, *row) for it, of_it in rows.items() for row in of_it):
                    path = f"{TOP}/completions/{program}.{shell}"
                    text = output_of([*SHELLS[shell], path, program, *argv], folder)
                    offered = [it.rstrip("/=") for it in text.split("\n")]
                    expect(word in offered, is_offered, f"{program} {' '.join(argv)}: {word} in {offered}")

    return test


def files_can_be_read(_: str) -> None:
    """Each shell that is there reads its files without an error."""
    for shell in filter(shutil.which, SHELLS):
        for program in PROGRAMS:
            argv = [shell, "-n", f"{TOP}/completions/{program}.{shell}"]
            ran = call(argv, stderr=subprocess.PIPE, check=False)
            expect((ran.returncode, ran.stderr), (0, b""), f"{program}.{shell}")


def are_installed(_: str) -> None:
    """They are where the shells look, and programs and pages beside them."""
    with tempfile.TemporaryDirectory() as folder:
        argv = ["make", "-s", "-C", TOP, "install-run", "PREFIX=/usr", f"DESTDIR={folder}"]
        call(argv, check=True)
        for it in ("asancol-run", "asancol-report", "asancol-listen"):
            for path in (f"share/man/man1/{it}.1", f"share/bash-completion/completions/{it}",
                         f"share/zsh/site-functions/_{it}", f"share/fish/vendor_completions.d/{it}.fish"):
                expect(os.path.isfile(f"{folder}/usr/{path}"), True, path)
            said = output_of([f"{folder}/usr/bin/{it}", "--version"])
            expect(said, f"{it} {text_of('VERSION').strip()}\n", f"{it} --version")
        expect(os.path.isfile(f"{folder}/usr/lib/asancol/asancol_report/__init__.py"), True, "the package")


# What a test needs whose program has to print its help, which a fake does not.
HELP = "--help"

# Name, what it does with a built asancol, and what it needs: programs, except the above.
TESTS: List[Tuple[str, Callable[[str], None], Tuple[str, ...]]] = [
    ("options", tables_are_made, (HELP,)),
    ("options: mistakes", mistakes_are_refused, ()),
    ("sample of a trace", sample_is_printed, ()),
    ("settings", settings_are_there, ()),
    ("fields of results", results_are_described, ()),
    ("pages", pages_have_no_flaw, ("man",)),
    ("pages and mandoc", mandoc_sees_no_flaw, ("mandoc",)),
    ("completions: syntax", files_can_be_read, ()),
    ("completions: installed", are_installed, ("cc",)),
    *((f"completions: {it}", offers(it), (it,)) for it in SHELLS),
]
