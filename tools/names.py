"""Names of the crates' sources, read as text: imports that nothing uses, lemmas that nothing cites,
and tests that have one name.

A name of an .antt file reaches from one blank, bracket, comma or semicolon to the next. Of a path,
as `event.Malloc`, the first part is the name that was imported. An operator is used where each of
its parts stands, as `if`, `then` and `else` of `if◌then◌else◌`. In an .rt file each word counts, so
an import there may be unused and pass here.
"""

import functools
import re
from typing import Dict, Iterable, Iterator, List, NamedTuple, Set, Tuple

# Modules of examples. They show what a definition means, and nothing cites them.
EXAMPLES = ("Examples", "Refuted")

ANTT_COMMENT = re.compile(r'"(?:[^"\\\n]|\\.)*"|\{-.*?-\}|(?<![^\s(){}\[\],;])--[^\n]*', re.S)
RUST_COMMENT = re.compile(r'b?"(?:[^"\\]|\\.)*"|//[^\n]*|/\*.*?\*/', re.S)
ANTT_USE = re.compile(
    r"^[ \t]*(?:unfoldable\s+)?use\s+([^\s{}]+?)(?:\.\{([^}]*)\}|\s+as\s+([^\s{}]+))?[ \t]*$", re.M
)
GHOST_USE = re.compile(
    r"^[ \t]*ghost\s+use\s+([^\s{};]+?)(?:\.\{([^}]*)\}|\s+as\s+([^\s{};]+))?\s*;", re.M
)
RUST_USE = re.compile(r"^[ \t]*(?:pub(?:\([a-z]+\))?\s+)?use\s+[^;]*;", re.M)
SEPARATORS = re.compile(r"[\s(){}\[\],;]+")
WORD = re.compile(r"\w+(?:[-'\w]*\w)?'*")
SIGNATURE = re.compile(
    r"^((?:(?:pub|abbrev|unfoldable|opaque|data|record|ruleset|axiom|pattern)\s+)*)"
    r"([^\s:(){}\[\],;]+)\s*(?:[({][^:]*:[^)}]*[)}]\s*|\{[^}]*\}\s*)*:(?=\s|$)"
)
RULESET = re.compile(r"^((?:pub\s+)?ruleset\s+)([^\s=]+)\s*=")
TEST = re.compile(r"#\s*\[\s*test\s*\]\s*fn\s+(\w+)")
# A case of runs.py and its like.
CASE = re.compile(r"^@test\ndef (\w+)\(program\):", re.M)


class Import(NamedTuple):
    """One name that a file brings in, and under which it is used there."""

    module: str
    name: str
    local: str
    line: int


def blanked(text: str, is_rust: bool) -> str:
    """Returns a text with blanks for its comments. Each line stays where it is."""

    def blank(found: "re.Match[str]") -> str:
        whole = found[0]
        is_text = whole.startswith(('"', 'b"'))
        return whole if is_text else re.sub(r"[^\n]", " ", whole)

    return (RUST_COMMENT if is_rust else ANTT_COMMENT).sub(blank, text)


def line_of(text: str, at: int) -> int:
    return text.count("\n", 0, at) + 1


def imports_in(text: str, is_rust: bool) -> Iterator[Import]:
    """Goes over what a blanked file imports of .antt files, by name or as a whole module."""
    for found in (GHOST_USE if is_rust else ANTT_USE).finditer(text):
        module, names, alias = found.groups()
        if names is None:
            local = alias or module.rpartition(".")[2]
            yield Import(module, "", local, line_of(text, found.start(1)))
            continue
        at = found.start(2)
        for item in names.split(","):
            name, _, local = item.strip().partition(" as ")
            begins = at + len(item) - len(item.lstrip())
            if name:
                yield Import(module, name, local.strip() or name, line_of(text, begins))
            at += len(item) + 1


class Source:
    """An .antt or .rt file: what it imports, and which names each of its lines has."""

    def __init__(self, path: str, text: str) -> None:
        self.path = path
        self.is_rust = path.endswith(".rt")
        self.text = blanked(text, self.is_rust)
        self.imports = list(imports_in(self.text, self.is_rust))
        blank = lambda found: re.sub(r"[^\n]", " ", found[0])
        rest = (GHOST_USE if self.is_rust else ANTT_USE).sub(blank, self.text)
        self.rest = RUST_USE.sub(blank, rest) if self.is_rust else rest

    @property
    def module(self) -> str:
        """The path by which other files import this one, of crates/CRATE/proofs/A/B.antt."""
        parts = self.path[: -len(".antt")].split("/")
        return ".".join(["Rattle", *parts[1:]])

    @property
    def rust_path(self) -> str:
        """The end of the path by which an attribute names a lemma of this file."""
        return "::".join(self.module.split(".")[2:])

    @functools.cached_property
    def tokens(self) -> Set[str]:
        """Each token outside the imports, without the holes of operators."""
        found = {it.replace("◌", "") for it in SEPARATORS.split(self.rest)}
        return found | (set(WORD.findall(self.rest)) if self.is_rust else set())

    @functools.cached_property
    def firsts(self) -> Set[str]:
        """The first part of each token."""
        return self.tokens | {it.partition(".")[0].strip("«»") for it in self.tokens}

    @functools.cached_property
    def parts(self) -> Dict[str, List[int]]:
        """The lines that have each part of a token."""
        found: Dict[str, List[int]] = {}
        for number, line in enumerate(self.rest.split("\n"), 1):
            for token in SEPARATORS.split(line):
                words = WORD.findall(token) if self.is_rust else []
                for part in {token, *token.split("."), *words}:
                    found.setdefault(part, []).append(number)
        return found

    def uses(self, name: str) -> bool:
        """Whether a name that was brought in occurs."""
        if name == "[]":
            return re.search(r"\[\s*\]", self.rest) is not None
        if "◌" not in name:
            return name in self.firsts
        if name in ("◌>>=◌", "◌>>◌") and "do" in self.tokens:
            return True
        return all(it in self.firsts for it in name.split("◌") if it)


def unused_imports(sources: List[Source]) -> Iterator[Tuple[str, int, str]]:
    """Goes over the names that a file imports and does not use."""
    for source in sources:
        for it in source.imports:
            if not source.uses(it.local):
                what = f"{it.local} of {it.module}" if it.name else it.module
                yield source.path, it.line, f"unused import: {what}"


class Lemma(NamedTuple):
    """A declaration, from its first line to the line after its last."""

    name: str
    begins: int
    ends: int


def lemmas_of(source: Source) -> List[Lemma]:
    """Returns the declarations of a file of proofs: those at its left edge, and those two columns
    further right in a `module`."""
    found: List[Tuple[str, int]] = []
    in_module = False
    lines = source.rest.split("\n")
    for number, line in enumerate(lines, 1):
        if line[:1].strip():
            in_module = line.startswith(("module ", "pub module "))
        edge = "  " if in_module else ""
        if line.startswith(edge) and line[len(edge) : len(edge) + 1].strip():
            rest = line[len(edge) :]
            signature = SIGNATURE.match(rest) or RULESET.match(rest)
            if signature:
                found.append((signature[2], number))
    ends = [begins for _, begins in found[1:]] + [len(lines) + 1]
    return [Lemma(name, begins, end) for (name, begins), end in zip(found, ends)]


def is_cited(lemma: Lemma, home: Source, sources: List[Source]) -> bool:
    """Whether a lemma is named outside itself, in its own file or in one that imports it."""
    if any(not lemma.begins <= it < lemma.ends for it in home.parts.get(lemma.name, ())):
        return True
    module = home.module
    for source in sources:
        if source is home:
            continue
        names = [it.local for it in source.imports if it.module == module and it.name == lemma.name]
        if any(source.uses(it) for it in names):
            return True
        brings_all = any(it.module == module and not it.name for it in source.imports)
        if (brings_all or home.rust_path in source.rest) and lemma.name in source.parts:
            return True
    return False


def uncited_lemmas(sources: List[Source]) -> Iterator[Tuple[str, int, str]]:
    """Goes over the lemmas, right in a folder proofs, that nothing cites."""
    for source in sources:
        parts = source.path.split("/")
        if len(parts) == 4 and parts[2] == "proofs" and parts[3][: -len(".antt")] not in EXAMPLES:
            for lemma in lemmas_of(source):
                if not is_cited(lemma, source, sources):
                    yield source.path, lemma.begins, f"lemma that nothing cites: {lemma.name}"


class Test(NamedTuple):
    """A test, and where it stands."""

    name: str
    path: str
    line: int


def tests_in(path: str, text: str, pattern: "re.Pattern[str]") -> Iterator[Test]:
    for found in pattern.finditer(text):
        yield Test(found[1], path, line_of(text, found.start(1)))


def tests_of(sources: List[Source]) -> Iterator[Test]:
    """Goes over the tests of the crates."""
    for source in sources:
        if source.is_rust:
            yield from tests_in(source.path, source.rest, TEST)


def repeated_tests(tests: Iterable[Test]) -> Iterator[Tuple[str, int, str]]:
    """Goes over the tests whose name is that of another one before them."""
    places: Dict[str, str] = {}
    for test in tests:
        if test.name in places:
            yield test.path, test.line, f"{places[test.name]} has a test of this name: {test.name}"
        places.setdefault(test.name, test.path)
