"""A crate's mutants, as its edits make them, and which of its functions call one another.

An edit is a file `crates/CRATE/mutants/NAME.edit`, in the form of the toolchain's must-fail edits:
lines `file:`, `old:` and `new:`, and each `old:` stands once in its file.
"""

import glob
import os
import re
from typing import Callable, Dict, List, NamedTuple, Optional, Set, Tuple

import bodies
from bodies import Function

FILE_NAME = re.compile(r"[A-Za-z0-9_-][A-Za-z0-9_.-]*\.edit")


class Change(NamedTuple):
    """A function whose body an edit changes: its file, as it is, and as the edit makes it."""

    path: str
    was: Function
    now: Function


class Edit(NamedTuple):
    """An edit: what it says, the texts that it makes of files, and the functions whose bodies it
    changes, by name. There are none if it changes something else too; if that is a constant,
    `users` are the functions that name it. If it is no good there are neither, and `bad` says why."""

    name: str
    said: str
    texts: Dict[str, str]
    changes: Dict[str, Change]
    users: Dict[str, Change] = {}
    bad: str = ""

    def tried(self) -> Dict[str, Change]:
        """Returns the functions one of which the prover has to refuse."""
        return self.changes or self.users


def edit_files(folder: str) -> List[str]:
    """Returns the files of a crate's edits. Pages for readers, which end in .md, are none."""
    if not os.path.isdir(f"{folder}/mutants"):
        return []
    return sorted(f"{folder}/mutants/{it}" for it in os.listdir(f"{folder}/mutants") if it[-3:] != ".md")


def name_of(file: str) -> str:
    name = os.path.basename(file)
    return name[: -len(".edit")] if name.endswith(".edit") else name


def path_name(crate: str, path: str, function: Function) -> str:
    """Returns the name of a function by the file where it stands. A check prints most names so: of a
    trait's method with the type, the trait and its argument."""
    module = re.sub(r"^src/|(?:/mod)?\.rt$", "", path)
    parts = [crate] + ([] if module in ("lib", "main") else module.split("/"))
    if function.block:
        head = re.split(r"\swhere\b", function.block)[0]
        of_trait = re.search(r"(?:<([\w:]+)>)?\sfor\s+(.*)", head)
        kind = re.split(r"[<\s]", of_trait[2].strip().lstrip("&"))[0] if of_trait else ""
        own = re.findall(r"\w+", head.partition(">")[0]) if head.startswith("impl<") else []
        given = [it for it in re.findall(r"\w+", of_trait[1] or "") if it not in own] if of_trait else []
        argument = "".join(it[0].upper() + it[1:] for it in given)
        parts.append(kind.rpartition("::")[2] + function.owner() + argument)
    return "::".join([*parts, function.name])


def closure(name: str, step: Callable[[str], Set[str]]) -> Set[str]:
    """Returns all names that steps lead to from this one."""
    found: Set[str] = set()
    left = [name]
    while left:
        new = step(left.pop()) - found
        found |= new
        left += new
    return found


class Source:
    """The text of a crate: its functions, each by its name by file."""

    def __init__(self, crate: str, folder: str) -> None:
        self.crate = crate
        self.folder = folder
        self.functions: Dict[str, Tuple[str, Function]] = {}
        for at, _, files in os.walk(f"{folder}/src"):
            for file in sorted(files):
                path = os.path.relpath(f"{at}/{file}", folder)
                for it in bodies.functions_in(bodies.read(f"{at}/{file}")):
                    self.functions[path_name(crate, path, it)] = (path, it)
        self.reach: Dict[str, Set[str]] = {}
        self.rests: Dict[str, Set[str]] = {}

    def edit(self, file: str) -> Edit:
        """Reads an edit."""
        said = bodies.read(file)
        try:
            if not FILE_NAME.fullmatch(os.path.basename(file)):
                raise bodies.BadEdit("the name of an edit has to end in .edit")
            texts = bodies.read_edit(file, self.folder)
        except bodies.BadEdit as bad:
            return Edit(name_of(file), said, {}, {}, bad=str(bad))
        changes: Dict[str, Change] = {}
        for path, new in texts.items():
            old = bodies.read(f"{self.folder}/{path}")
            changed = bodies.changed_in(old, new) if path.endswith(".rt") else None
            if not changed:
                return Edit(name_of(file), said, texts, {}, self.users_of(bodies.constant_in(old, new)))
            for was, now in changed:
                changes[path_name(self.crate, path, was)] = Change(path, was, now)
        return Edit(name_of(file), said, texts, changes)

    def users_of(self, constant: str) -> Dict[str, Change]:
        """Returns the functions that name a constant, each as it is."""
        word = re.compile(rf"\b{constant}\b") if constant else None
        return {
            name: Change(path, it, it)
            for name, (path, it) in self.functions.items()
            if word and word.search(it.tail)
        }

    def proofs_of(self, name: str) -> Optional[List[str]]:
        """Returns the folders, below `proofs`, with the hand-written proofs of a function and of its closures,
        or None if it can't be seen which they are. Those of a method stand below the
        module of its type, wherever its block is."""
        path, function = self.functions[name]
        module = re.sub(r"^src/|(?:/mod)?\.rt$", "", path)
        below = "" if module in ("lib", "main") else f"{module}/"
        top = f"{self.folder}/proofs"
        found = [f"{top}/{below}{it}{function.name}" for it in ("", "fn/")]
        if function.block:
            found = []
            for kind in (function.owner(), f"{function.owner()}+*"):
                for fn in ("", "fn/"):
                    found += glob.glob(f"{top}/**/{kind}/{fn}{function.name}", recursive=True)
        found = [os.path.relpath(it, top) for it in found if os.path.isdir(it)]
        return found if len({os.path.dirname(it).replace("/fn", "") for it in found}) < 2 else None

    def reached(self, name: str) -> Set[str]:
        """Returns the functions of the crate that this one may call, and those that they may call.
        It goes by names, so there can be too many. If one is missed, the check says of its caller that it calls an
        unproved function, which counts for nothing."""
        if name not in self.reach:
            self.reach[name] = closure(name, self.called)
        return self.reach[name]

    def rests_on(self, name: str) -> Set[str]:
        """Returns the functions that have to be proved for this one to be: those reached, and the
        others of each impl of a trait that one of them stands in."""
        if name not in self.rests:
            self.rests[name] = closure(name, lambda it: self.called(it) | self.of_impl(it))
        return self.rests[name]

    def of_impl(self, name: str) -> Set[str]:
        """Returns the functions of the impl of a trait that this one stands in."""
        if " for " not in self.functions[name][1].block:
            return set()
        kind = name.rpartition("::")[0]
        return {it for it in self.functions if it.rpartition("::")[0] == kind}

    def called(self, name: str) -> Set[str]:
        """Returns the functions that may be called by the text of this one."""
        text = self.functions[name][1].tail
        methods = set(re.findall(r"\.\s*(\w+)\s*(?:::<[^>]*>)?\(", text))
        of_types = set(re.findall(r"(\w+)::(\w+)", text))
        plain = set(re.findall(r"(?<![.:\w])(\w+)\s*(?:::<[^>]*>)?\(", text))
        own = self.functions[name][1].owner()
        found = set()
        for it, (_, function) in self.functions.items():
            kinds = [own if a == "Self" else a for a, b in of_types if b == function.name]
            if function.block:
                of_trait, owner = " for " in function.block, it.split("::")[-2]
                is_called = any(of_trait or owner.startswith(kind) for kind in kinds)
                is_called = is_called or function.name in methods
            else:
                is_called = function.name in plain or bool(kinds)
            if is_called and it != name:
                found.add(it)
        return found
