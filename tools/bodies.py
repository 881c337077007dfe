"""Functions of an .rt file, read as text, and what an edit changes of them.

The text has to be in the layout of `rt fmt`: a function ends at the first line that has its own
indentation and nothing but its closing brace.
"""

import os
import re
from typing import Dict, List, NamedTuple, Optional, Tuple

FUNCTION = re.compile(
    r"^(?P<indent>[ \t]*)(?P<head>(?:#\[(?:[^\]]|\](?!\n))*\]\n(?P=indent))*"
    r'(?:pub(?:\([^)]*\))? )?(?:const |unsafe |extern "C" )*fn )(?P<name>\w+)',
    re.M,
)
BLOCK = re.compile(r"^(?:pub(?:\([^)]*\))? )?(?:unsafe )?(impl|trait|mod)\b", re.M)

# The line of a constant, up to its value.
CONSTANT = re.compile(r"\s*(pub(?:\([^)]*\))? )?const (\w+): [^=]*=")


class BadEdit(Exception):
    """An edit that cannot be applied. Its text says why."""


class Function(NamedTuple):
    """A function with a body: where it stands in its file, from its attributes on."""

    name: str
    start: int
    end: int
    # The text before its name, and that after it.
    head: str
    tail: str
    # The head of the block around it, as `impl Block`, or nothing.
    block: str

    def named(self, name: str) -> str:
        """Returns its text under another name."""
        return self.head + name + self.tail

    def may_have_twin(self) -> bool:
        """Returns whether a function of another name can stand beside it. In a trait and its impls
        the trait says the names."""
        is_own = self.block.startswith("impl") and not re.search(r"\bfor\s", self.block)
        return not self.block or is_own

    def owner(self) -> str:
        """Returns the name of the type whose method it is, or nothing."""
        return re.sub(r".*::", "", re.split(r"[<\s]", without_generics(self.block))[0])


def without_generics(block: str) -> str:
    """Returns what follows `impl` and the brackets after it."""
    text = block[len("impl") :].replace("->", "  ")
    depth = 0
    for at, sign in enumerate(text):
        depth += (sign == "<") - (sign == ">")
        if depth == 0 and sign not in "> ":
            return text[at:]
    return ""


def end_of(text: str, found: "re.Match[str]") -> Optional[int]:
    """Returns where a function ends, or None if it has no body."""
    line_end = text.find("\n", found.end())
    line = text[found.end() : line_end]
    if line.endswith("}") and line.count("{") == line.count("}"):
        return line_end + 1
    indent = re.escape(found["indent"])
    # Another function that stands as deep, or the end of the block around both.
    border = re.compile(rf"^{indent}(?:\S[^\n]*\b)?fn \w" + (r"|^\}" if indent else ""), re.M)
    limit = border.search(text, line_end)
    closing = re.compile(rf"^{indent}(?:\{{\s*)?\}}\n", re.M)
    closed = closing.search(text, line_end + 1, limit.start() if limit else len(text))
    return closed.end() if closed else None


def block_around(text: str, at: int) -> str:
    """Returns the head of the last block that begins before this place."""
    last = None
    for last in BLOCK.finditer(text, 0, at):
        pass
    return " ".join(text[last.start(1) : text.index("{", last.end())].split()) if last else ""


def functions_in(text: str) -> List[Function]:
    """Returns the functions with a body, in order. One inside another is a part of it."""
    found: List[Function] = []
    for match in FUNCTION.finditer(text):
        end = end_of(text, match)
        if end is None or (found and match.start() < found[-1].end):
            continue
        block = block_around(text, match.start()) if match["indent"] else ""
        head = match["indent"] + match["head"]
        tail = text[match.end() : end]
        found.append(Function(match["name"], match.start(), end, head, tail, block))
    return found


def read(path: str) -> str:
    with open(path, encoding="utf-8") as file:
        return file.read()


def read_edit(path: str, crate: str) -> Dict[str, str]:
    """Returns the texts of the files that an edit changes, by their path in the crate's folder."""
    old_texts: Dict[str, str] = {}
    texts: Dict[str, str] = {}
    file, old = "", ""
    for line in read(path).split("\n"):
        if line.startswith("file: "):
            file = checked_path(line[len("file: ") :].strip(), crate)
            old_texts[file] = read(f"{crate}/{file}")
        elif line.startswith("old: "):
            old = line[len("old: ") :]
        elif line.startswith("new:"):
            if not file or not old:
                raise BadEdit("a line `new:` stands before any `file:` or `old:`")
            text = texts.get(file, old_texts[file])
            if text.count(old) != 1:
                raise BadEdit(f"an `old:` stands {text.count(old)} times in {file}, and not once")
            new = line[len("new:") :]
            texts[file] = text.replace(old, new[1:] if new.startswith(" ") else new)
            old = ""
    if not texts:
        raise BadEdit("it has no `old:` and `new:`")
    if all(texts[it] == old_texts[it] for it in texts):
        raise BadEdit("it changes nothing")
    return texts


def checked_path(file: str, crate: str) -> str:
    """Returns the path of a file that an edit may change."""
    if os.path.normpath(file) != file or not file.startswith(("src/", "specs/", "proofs/")):
        raise BadEdit(f"{file} is no file below src, specs or proofs")
    if not os.path.isfile(f"{crate}/{file}"):
        raise BadEdit(f"no file {file}")
    return file


def without_blanks(text: str) -> str:
    return re.sub(r"\s+", "", text)


def without(text: str, functions: List[Function]) -> str:
    """Returns a text with nothing in the place of these functions."""
    parts, at = [], 0
    for function in functions:
        parts.append(text[at : function.start])
        at = function.end
    return "".join(parts) + text[at:]


def changed_in(old: str, new: str) -> Optional[List[Tuple[Function, Function]]]:
    """Returns the functions that an edit of a file changes, each as it was and as it is, or None if
    it changes something else too. One whose blanks alone differ counts only if no other does."""
    were, are = functions_in(old), functions_in(new)
    if [it.name for it in were] != [it.name for it in are]:
        return None
    if without_blanks(without(old, were)) != without_blanks(without(new, are)):
        return None
    pairs = [(was, now) for was, now in zip(were, are) if was.named("") != now.named("")]
    more = [it for it in pairs if without_blanks(it[0].tail) != without_blanks(it[1].tail)]
    return more or pairs


def constant_in(old: str, new: str) -> str:
    """Returns the name of the constant whose value alone differs, or nothing if it is not so."""
    lines = [it for it in zip(old.split("\n"), new.split("\n")) if it[0] != it[1]]
    found = [[CONSTANT.match(it) for it in pair] for pair in lines]
    if len(found) != 1 or old.count("\n") != new.count("\n"):
        return ""
    was, now = found[0]
    return was[2] if was and now and was[0] == now[0] else ""
