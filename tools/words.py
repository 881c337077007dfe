"""Words of this project for which the field has others, so that only those stand in the tree.

GLOSSARY.md defines the new ones. The old ones occur in this table, and in proved sources, where each changed byte must
be proved again.

Pages have a clause where English has a noun no more often than the table of habits says, and comments in C and Python
no more often than the table of folders. Sentences of pages with two semicolons or more are counted, too.

usage: tools/words.py FOLDER..

lists the habits in the comments of these folders.
"""

import re
import sys
from typing import Dict, Iterator, List, NamedTuple, Tuple

from files import TOP, files_of_tree

Finding = Tuple[str, int, str]

# What to say, and the pattern of what not to say. A blank in it is also the end of a line, with
# what begins the next one.
OLD: Dict[str, str] = {
    "complete": r"(?i:seen whole)|NOT ALL SEEN|\bnot_whole\b|seen_whole",
    "flagged": r"(?i:h[eo]ld(?:s|ing)?) for bad",
    "snapshot": r"(?<![`\w/[])(?i:restat(?:e|es|ed|ing))\b",
    "mutant": r"(?i:wrong bod(?:y|ies))|check-wrong|wrong_alone|crates/\w+/wrong\b",
    "lint": r"(?i:hygiene)",
    "oracle": r"(?i:second reading)|second_reading",
    "golden rows": r"(?i:worked (?:rows?|examples?))|worked_rows|examples/worked",
    "call site": r"\bplace_(?:word|address|frames)\b",
    "argv": r"char \*\*words\b|\bwords_add|\brun_words\b",
    "hook page": r"(?i:meeting[ _](?:page|start))|struct meeting\b",
}
PATTERNS = [
    (new, re.compile(old.replace("[ _]", "(?: |_)").replace(" ", r"(?:[ ]|\s*\n[\s#*/\"]*)")))
    for new, old in OLD.items()
]
NAMES = re.compile(r"restat|(?:^|/)(?:hygiene|second_reading|worked|wrong(?:_alone)?|seen_whole)\b")
# What is not read; and of what the names are not looked at either.
UNREAD = re.compile(
    r"docs/CALLS\.md|tools/words\.py|.*\.trace"
    r"|crates/\w+/(?:src|specs|proofs|mutants)/"
)
PROVED = re.compile(r"crates/asan_laws/")


class Habit(NamedTuple):
    """A phrase to avoid, its replacement, and how often the pages may have it."""

    pattern: str
    instead: str
    at_most: int


# Lower a number when you remove one.
HABITS = [
    Habit(r"what (?:is|are|was|were)", "a noun", 0),
    Habit(r"what becomes of", "a noun", 0),
    Habit(r"but for", "except", 0),
    Habit(r"(?:of|by) which nobody", "unknown", 0),
    Habit(r"likewise", "the same", 0),
    Habit(r"(?<!there )(?:is|are|was|were) no(?! longer|-)", "is not a", 1),
    Habit(r"so many|as many as", "at most N", 0),
    Habit(r"(?:built|compiled|linked) so", "built this way", 0),
    Habit(r"not everything was seen", "incomplete", 0),
    Habit(r"handed out again", "reused", 0),
    Habit(r"exactly if", "exactly when", 0),
    Habit(r"not proved (?:is|are)", "it is not proved that", 0),
    Habit(r"of (?:a|an|the|any) [\w-]+ it (?:is|was)(?: not)? \w+", "the usual order of words", 0),
    Habit(r"such as(?=[.;:)])", "such as, with an example after it", 0),
    Habit(r"of which", "a sentence of its own", 0),
    Habit(r"(?:that|those) of", "the noun", 40),
    Habit(r"(?:so|neither|nor) (?:do|does|is|are|has|have)", "the whole sentence", 20),
]
# Headings and code of pages are left out.
PAGES = re.compile(
    r"(?:(?:common|crates|recorder|run)/)?README\.md|docs/(?:inside/)?(?!CALLS)[\w-]+\.md|(?:\w+/)*man/[\w+-]+\.[15]"
)
NOT_PROSE = re.compile(r"^```.*?^```|^(?: {4}|#|\.[A-Z]).*?$|`[^`]*`|\]\([^)]*\)", re.M | re.S)


# How many sentences outside tables may have two semicolons or more.
MOST_CHAINS = 12
PARAGRAPH = re.compile(r"\n\s*\n|\n(?= *(?:-|\d+\.) )")
SENTENCE = re.compile(r"(?<=[.:])\s+(?=[A-Z`*\[])")


def chains_of(text: str) -> int:
    """Returns how many sentences of a page, outside its tables, have two semicolons or more."""
    prose = NOT_PROSE.sub("", re.sub(r"^\|.*$", "", text, flags=re.M))
    sentences = [it for part in PARAGRAPH.split(prose) for it in SENTENCE.split(" ".join(part.split()))]
    return sum(it.count(";") > 1 for it in sentences)


def habits_of(texts: List[str]) -> Iterator[Finding]:
    """Goes over the habits that the pages have more often than their numbers say."""
    text = " ".join(" ".join(NOT_PROSE.sub("", it) for it in texts).split())
    for habit in HABITS:
        count = len(re.findall(rf"\b(?:{habit.pattern})\b", text, re.I))
        if count > habit.at_most:
            said = f"{count} times '{habit.pattern}' in pages, and at most {habit.at_most} are allowed"
            yield "tools/words.py", 1, f"{said}: write {habit.instead}"
    chains = sum(chains_of(it) for it in texts)
    if chains > MOST_CHAINS:
        said = f"{chains} sentences of pages have two semicolons or more, and at most {MOST_CHAINS} are allowed"
        yield "tools/words.py", 1, f"{said}: write a sentence for each fact, or a list"


# Phrases to avoid in comments too, and how many a folder may have. Lower a number when you remove one.
IN_COMMENTS = re.compile(
    r"\b(?:what (?:is|are|was|were)|becomes of|but for|so many|as many as|want of|of which nobody|likewise|in vain|thus"
    r"|(?:built|compiled|linked) so|handed out again)\b", re.I
)
MOST_IN_COMMENTS = {"recorder/tests": 3}
COMMENT_OF_C = re.compile(r"/\*.*?\*/|//[^\n]*", re.S)
COMMENT_OF_PYTHON = re.compile(r'"""(?:.*?)"""|#[^\n]*', re.S)
BREAK = re.compile(r"\s*\n[\s*#/]*")


def folder_of(path: str) -> str:
    """Returns the folder by which a file's comments are counted, or nothing for a file without such comments."""
    parts = path.split("/")
    if path == "tools/words.py" or parts[0] == "crates" or not path.endswith((".c", ".cpp", ".def", ".h", ".py")):
        return ""
    return "/".join(parts[:2]) if "tests" in parts[1:-1] else parts[0]


def habits_in(path: str, text: str) -> Iterator[Finding]:
    """Goes over the habits in the comments of a file in C or Python."""
    comment = COMMENT_OF_PYTHON if path.endswith(".py") else COMMENT_OF_C
    for found in comment.finditer(text):
        for habit in IN_COMMENTS.finditer(BREAK.sub(" ", found[0])):
            yield path, text.count("\n", 0, found.start()) + 1, habit[0]


def too_many(habits: List[Finding]) -> Iterator[Finding]:
    """Goes over the folders whose comments have more habits than their numbers say."""
    counts: Dict[str, int] = {}
    for path, _, _ in habits:
        counts[folder_of(path)] = counts.get(folder_of(path), 0) + 1
    for folder, count in sorted(counts.items()):
        most = MOST_IN_COMMENTS.get(folder, 0)
        if count > most:
            said = f"{count} foreign phrases in comments of {folder}, and at most {most} are allowed"
            yield "tools/words.py", 1, f"{said}: write a noun. `tools/words.py {folder}` lists them"


def findings(files: List[str]) -> Iterator[Finding]:
    """Goes over the old words in the files, those in the names of files, and the habits of pages and comments."""
    of_pages: List[str] = []
    in_comments: List[Tuple[str, int, str]] = []
    for path in files:
        if NAMES.search(path) and not PROVED.match(path):
            yield path, 1, "an old word in its name: tools/words.py has the new ones"
        if UNREAD.match(path):
            continue
        with open(f"{TOP}/{path}", encoding="utf-8", errors="replace") as file:
            text = file.read()
        if PAGES.fullmatch(path):
            of_pages.append(text)
        if folder_of(path):
            in_comments += habits_in(path, text)
        for new, pattern in PATTERNS:
            for found in pattern.finditer(text):
                line = text.count("\n", 0, found.start()) + 1
                yield path, line, f"{' '.join(found[0].split())}: the field's word is {new}"
    yield from habits_of(of_pages)
    yield from too_many(in_comments)


if __name__ == "__main__":
    for name in files_of_tree():
        if folder_of(name) in sys.argv[1:]:
            with open(f"{TOP}/{name}", encoding="utf-8") as source:
                for place in habits_in(name, source.read()):
                    print("%s:%d: %s" % place)
