"""What the pages name: functions, clauses, files, tests, links and targets of make.

A page names a thing in backticks, and a maintainers' page in its figures too. A path has to be that of
a file, from the top, from the page's folder, from the folder `crates`, or the end of one. A name with
`_` or `::` or a capital inside has to occur in the sources. In a table with a column `function,
clause` each word of that column has to be a function, a clause, a definition or a field; one that
begins with a capital has to occur. What follows a function there, up to a `;` and not in brackets,
has to be a clause of a function of that name, or a public function or a test; functions of one name
count as one. A link that is no address has to lead to a file and, after `#`, to a heading of it. Each
target of `make` has to be in the Makefile. A line of a code block has one command. A golden row has the
events and the lines of the rows that its title names.
"""

import os
import re
from typing import Dict, Iterator, List, Optional, Set, Tuple

from testing.golden import Row
from testing.traces import is_row

Finding = Tuple[str, int, str]

# What the pages name of the system and of other programs.
ELSEWHERE = {
    "asan_interface.h",
    "common_interface_defs.h",
    "allocator_interface.h",
    "coverage_interface.h",
    "linux_syscall_hooks.h",
    "lsan_interface.h",
    "malloc.h",
    "__SANITIZE_ADDRESS__",
    "__asan_report_store4_noabort",
    "asancol_report_load4",
    "RTLD_DEEPBIND",
    "LD_PRELOAD",
    "ether_aton_r",
    "getmntent_r",
    "getprotoent_r",
    "random_r",
    "strict_string_checks",
    "SO_PEERCRED",
    "O_EXCL",
}

PAGE = re.compile(
    r"(?:docs/(?:inside/)?[^/]+|(?:crates(?:/\w+)?|common|recorder|run)/README|README|CHANGELOG|CONTRIBUTING)\.md"
)
# A generated file: a page may name it, but a link would lead to nothing where it is not made.
MADE = {"docs/CALLS.md"}

SPAN = re.compile(r"`([^`]+)`")
LINK = re.compile(r"\]\(([^)\s]+)\)")
PATH = re.compile(r"(?:[\w.*-]+/)*[\w.*-]+\.(?:rt|antt|py|md|c|h|edit)")
NAME = re.compile(r"(?:\w+::)*\w+(?:-\w+)*")
DECLARED = re.compile(
    r"\b(?:fn|struct|enum|trait|type|const|def|ensures|requires|invariant|ghost|mod)\s+(\w+)"
)
RECORD = re.compile(r"\b(?:data|record)\s+(?:pub\s+)?([\w'-]+)")
# A definition or a field of .antt, and a field of .rt.
DEFINED = re.compile(
    r"^\s*(?:(?:pub|abbrev|data|record|unfoldable)\s+)*([\w'-]+)\b[^:\n]*:(?:\s|$)", re.M
)
FUNCTION = re.compile(r"\bfn (\w+)")
PUBLIC = re.compile(r"(?:\bpub (?:const )?|#\[test\]\s*)fn (\w+)")
CLAUSE = re.compile(r"\b(?:ensures|requires)\*? (\w+)")
# The golden rows of a page; and each of them, with the names of its rows and the rest up to the next one.
EXAMPLES = re.compile(r"^## Golden rows\n.*?(?=^## |\Z)", re.M | re.S)
EXAMPLE = re.compile(r"^\*\*([^*]+)\*\*(?: \((`\w+`(?:,\s`\w+`)*)\))?(.*?)(?=^\*\*|\Z)", re.M | re.S)
MAKE = re.compile(r"(?:^|[\s`(])make((?: +(?:-\w+ +\w+|[A-Z]+=\S+|[a-z][a-z-]*))+)")


class Tree:
    """The files that git knows, and what the sources among them declare."""

    def __init__(self, top: str, files: List[str]) -> None:
        self.top = top
        self.files = set(files)
        self.folders = {os.path.dirname(it) for it in files}
        self.folders |= {os.path.dirname(it) for it in self.folders}
        self.words: Set[str] = set()
        self.declared: Set[str] = set()
        # The clauses of the functions of each name.
        self.clauses: Dict[str, Set[str]] = {}
        # The functions that a page may name after another one: those that are public, and tests.
        self.named: Set[str] = set()
        for path in files:
            if path.endswith((".rt", ".antt", ".py", ".c", ".h", ".def", ".txt", ".rows", "Makefile")):
                self.read(path)
        self.stems = {os.path.splitext(os.path.basename(it))[0] for it in files}

    def text_of(self, path: str) -> str:
        with open(f"{self.top}/{path}", encoding="utf-8", errors="replace") as file:
            return file.read()

    def read(self, path: str) -> None:
        text = self.text_of(path)
        self.words.update(re.findall(r"\w+(?:-\w+)*", text))
        self.words.update(re.findall(r"\w+", text))
        if path.endswith((".rt", ".antt")):
            self.declared.update(DECLARED.findall(text))
            self.declared.update(RECORD.findall(text))
            self.declared.update(DEFINED.findall(text))
            self.declared.update(re.findall(r"^\s*(\w+)(?:\(|,| \{)", text, re.M))
        if path.endswith(".rt"):
            self.named.update(PUBLIC.findall(text))
            parts = FUNCTION.split(text)
            for name, rest in zip(parts[1::2], parts[2::2]):
                self.clauses.setdefault(name, set()).update(CLAUSE.findall(rest))

    def has_path(self, path: str, page: str) -> bool:
        """Whether a path that a page names is that of a file, or the end of one. A `*` stands for
        any name, and a part in capitals for folders."""
        if os.path.normpath(os.path.join(os.path.dirname(page), path)) in self.files:
            return True
        wanted = re.escape(path).replace(r"\*", "[^/]*")
        wanted = re.sub(r"(^|/)[A-Z]+(?=/)", r"\1.*", wanted)
        return any(re.search(f"(^|/){wanted}$", it) for it in self.files)


def slug_of(heading: str) -> str:
    """Returns the anchor that a heading has."""
    words = re.sub(r"\[([^]]*)\]\([^)]*\)", r"\1", heading.strip().lower())
    return re.sub(r"[^\w\- ]", "", words).replace(" ", "-")


def headings_of(text: str) -> Set[str]:
    text = re.sub(r"^```.*?^```", "", text, flags=re.M | re.S)
    return {slug_of(it) for it in re.findall(r"^#+ (.*)$", text, re.M)}


def bad_links(page: str, text: str, tree: Tree) -> Iterator[Finding]:
    for number, line in enumerate(text.split("\n"), 1):
        for link in LINK.findall(line):
            path, _, anchor = link.partition("#")
            if ":" in path:
                continue
            to = os.path.normpath(os.path.join(os.path.dirname(page), path)) if path else page
            if to not in tree.files and to not in tree.folders:
                yield page, number, f"link to nothing: {link}"
            elif anchor and to.endswith(".md") and anchor not in headings_of(tree.text_of(to)):
                yield page, number, f"link to no heading: {link}"


def is_a_name(span: str) -> bool:
    """Whether a span in backticks looks like a name of the sources."""
    last = span.rpartition("::")[2]
    is_mixed = re.fullmatch(r"[A-Z][a-z0-9]+(?:[A-Z][a-z0-9]*)+", last) is not None
    return NAME.fullmatch(span) is not None and ("_" in last or "::" in span or is_mixed)


def bad_names(page: str, text: str, tree: Tree) -> Iterator[Finding]:
    """Goes over the paths and names in backticks that are not there."""
    for number, line in enumerate(text.split("\n"), 1):
        for span in SPAN.findall(line):
            if span in ELSEWHERE | MADE:
                continue
            if PATH.fullmatch(span):
                if not tree.has_path(span, page):
                    yield page, number, f"no such file: {span}"
            elif is_a_name(span):
                lacking = [it for it in span.split("::") if it not in tree.words | tree.stems]
                if lacking:
                    yield page, number, f"nothing has this name: {span}"


def bad_figures(page: str, text: str, tree: Tree) -> Iterator[Finding]:
    """Goes over the paths and names in the figures of a maintainers' page that are not there."""
    in_block = False
    for number, line in enumerate(text.split("\n"), 1):
        in_block = in_block != line.startswith("```")
        for word in re.split(r"[\s(),]+", line) if in_block else ():
            if PATH.fullmatch(word):
                if not tree.has_path(word, page):
                    yield page, number, f"no such file: {word}"
            elif word not in ELSEWHERE and is_a_name(word) and not set(word.split("::")) <= tree.words | tree.stems:
                yield page, number, f"nothing has this name: {word}"


def cells_of(line: str) -> List[str]:
    return [it.strip() for it in re.split(r"(?<!\\)\|", line)[1:-1]]


def strangers(cell: str, tree: Tree) -> Iterator[str]:
    """Goes over the words of a cell that stand after a function and are no clause of it."""
    for group in re.sub(r"\([^)]*\)", "", cell).split(";"):
        clauses: Optional[Set[str]] = None
        for span in SPAN.findall(group):
            name = span.rpartition("::")[2]
            if clauses is not None and name not in clauses | tree.named:
                yield span
            if name in tree.clauses:
                clauses = tree.clauses[name] | (clauses or set())


def bad_cells(page: str, text: str, tree: Tree) -> Iterator[Finding]:
    """Goes over the words of the columns `function, clause` that no source declares."""
    column = None
    for number, line in enumerate(text.split("\n"), 1):
        cells = cells_of(line) if line.startswith("|") else []
        if not cells:
            column = None
        elif column is None:
            heads = [it for it in cells if it.startswith(("function, clause", "the clause"))]
            column = cells.index(heads[0]) if heads else -1
        elif 0 <= column < len(cells):
            for span in SPAN.findall(cells[column]):
                last = span.rpartition("::")[2]
                known = tree.words if last[0].isupper() else tree.declared
                if NAME.fullmatch(span) and last not in known:
                    yield page, number, f"no function, clause or definition: {span}"
            for span in strangers(cells[column], tree):
                yield page, number, f"no clause of the function before it: {span}"


def bad_targets(page: str, text: str, targets: Dict[str, Set[str]]) -> Iterator[Finding]:
    """Goes over the targets behind `make`, in backticks or in a line of code, except those of a recorded project."""
    in_block = False
    for number, line in enumerate(text.split("\n"), 1):
        in_block = in_block != line.startswith("```")
        code = [line.strip()] if in_block or line.startswith("    ") else SPAN.findall(line)
        for span in code:
            is_ours = "make" in span and not span.startswith("asancol-run ")
            for words in MAKE.findall(re.split(r"  +|#", span)[0] if is_ours else ""):
                folder = re.search(r"-C +(\w+)", words)
                known = targets.get(folder[1] if folder else ".", set())
                for word in re.sub(r"-\w+ +\w+", "", words).split():
                    if "=" not in word and word not in known:
                        yield page, number, f"no target of the Makefile: make {word}"


def is_as_rows(names: str, rest: str, known: Dict[str, Row]) -> bool:
    """Returns whether a golden row has the events, the bounds of the quarantine and the lines of these rows."""
    named = [known.get(it) for it in SPAN.findall(names)]
    rows = [it for it in named if it]
    events = [it for it in SPAN.findall(rest.replace("\n", " ")) if is_row(it)]
    bounds = [str(row.numbers["Q"]) for row in rows if "Q" in row.numbers]
    return (
        len(named) == len(rows) > 0
        and events == list(dict.fromkeys(row.text for row in rows))
        and re.findall(r"\bQ = (\d+)", rest) == bounds
        and re.findall(r"^p\d+ .*$", rest, re.M) == [line for row in rows for line in row.lines]
    )


def bad_examples(page: str, text: str, known: Dict[str, Row]) -> Iterator[Finding]:
    """Goes over the golden rows of a page that are not what the rows say which their titles name."""
    for examples in EXAMPLES.finditer(text):
        for found in EXAMPLE.finditer(examples[0]):
            title, names, rest = found.groups()
            if not is_as_rows(names or "", rest, known):
                line = text.count("\n", 0, examples.start() + found.start()) + 1
                yield page, line, f"not what the rows of examples/golden say: {title}"


def joined_commands(page: str, text: str) -> Iterator[Finding]:
    """Goes over lines of commands with two comments: a second command was run into the first."""
    for number, line in enumerate(text.split("\n"), 1):
        if line.startswith("    ") and len(re.findall(r"\S {2,}# \S|\S # \S", line)) > 1:
            yield page, number, "two commands in one line"


def targets_of(tree: Tree) -> Dict[str, Set[str]]:
    """Returns the targets of each Makefile, by its folder."""
    found = {}
    for path in tree.files:
        if os.path.basename(path) == "Makefile":
            names = re.findall(r"^([\w -]+):(?!=)", tree.text_of(path), re.M)
            found[os.path.dirname(path) or "."] = {it for name in names for it in name.split()}
    return found


def findings(tree: Tree, known: Dict[str, Row]) -> Iterator[Finding]:
    targets = targets_of(tree)
    pages = [it for it in tree.files if PAGE.fullmatch(it)]
    for page in sorted(pages):
        text = tree.text_of(page)
        yield from bad_links(page, text, tree)
        yield from bad_names(page, text, tree)
        if page.startswith("docs/inside/"):
            yield from bad_figures(page, text, tree)
        yield from bad_cells(page, text, tree)
        yield from bad_targets(page, text, targets)
        yield from bad_examples(page, text, known)
        yield from joined_commands(page, text)
