"""How the edits of a crate are shared out among checks, several to each.

A mutant may stand in two ways.

- Beside: as one more function after the right one, under the same clauses and with a copy of its
  proof files. Nothing calls it, so any number of them fit into one check. If there are proof files,
  a copy of the right body with such files stands there too, as a control: it has to be proved, else
  the edits of its function show nothing there.
- In place, where no other body of the check rests on its function, so that all that each rests on is
  as it was. So stand methods of traits, which can't have another beside them, and
  functions with proof files and one edit, which then need no control.

A check is of the bodies that an edit changes, of the copies and of the controls, and of nothing else.
"""

import re
from typing import Dict, List, NamedTuple, Tuple

import bodies
from bodies import Function
from edits import Change, Edit, Source

# How many edits stand beside the right bodies in one check. With more the last check takes long
# alone, and with fewer a crate is read more often.
MOST = 20


class Copy(NamedTuple):
    """One more function, right after the one that it is a copy of: its name by file, which no other
    function has, its text, and the folders of the original's proof files."""

    name: str
    path: str
    original: Function
    text: str
    proofs: List[str]

    def proof_folders(self) -> List[Tuple[str, str]]:
        """Returns each folder of the original's proof files, and that of the copy's."""
        name = self.name.rpartition("::")[2]
        return [(it, re.sub(r"[^/]+$", name, it)) for it in self.proofs]


class Round(NamedTuple):
    """One check: its edits, the texts of the files with all of them, the copy of each that stands
    beside the right body, by its name, and the controls, by the function whose copies they are."""

    edits: List[Edit]
    texts: Dict[str, str]
    copies: Dict[str, Copy]
    controls: Dict[str, Copy]

    def all_copies(self) -> List[Copy]:
        return [*self.controls.values(), *self.copies.values()]

    def paths(self) -> List[str]:
        """Returns the functions that the check is of, as `--only` takes them."""
        of = [(it.name, it.original) for it in self.all_copies()]
        placed = [it for it in self.edits if it.name not in self.copies]
        of += [(name, it.was) for edit in placed for name, it in edit.changes.items()]
        return sorted({path_of(*it) for it in of})

    def changed(self, edit: Edit) -> List[str]:
        """Returns the functions that are wrong by an edit, by their names by file."""
        copy = self.copies.get(edit.name)
        return [copy.name] if copy else list(edit.changes)


def path_of(name: str, function: Function) -> str:
    """Returns a function's path in its crate: of a method, that from its type on. The type has its
    arguments if one of them is no parameter of the block."""
    kind, _, last = name.rpartition("::")
    if not function.block:
        return name.partition("::")[2]
    return f"{kind.rpartition('::')[2]}{''.join(f'+{it}' for it in arguments_of(function.block))}::{last}"


def arguments_of(block: str) -> List[str]:
    """Returns the arguments of the type whose own methods stand in a block, without lifetimes, or
    none if all are parameters."""
    found = re.match(r"impl(?:<([^>]*)>)?\s+[\w:]+<([\w\s,']*)>(?!.*\sfor\s)", block)
    own, given = (re.findall(r"(?<!['\w])\w+", it or "") for it in found.groups()) if found else ([], [])
    return [] if set(given) <= set(own) else given


def shared_out(source: Source, edits: List[Edit]) -> List[Round]:
    """Returns the rounds for edits that change bodies of functions and nothing else. Those of one
    function stand together, since they share a control."""
    apart = [it for it in edits if may_stand_beside(source, it)]
    apart.sort(key=lambda it: list(it.changes))
    count = -(-len(apart) // MOST)
    ends = [len(apart) * number // count for number in range(count + 1)] if count else []
    shares = [(apart[one:other], in_place_of_control(source, apart[one:other])) for one, other in zip(ends, ends[1:])]
    for edit in edits:
        if edit not in apart:
            fit = [it for it in shares if may_join(source, edit, *it)]
            if not fit:
                shares.append(([], []))
            (fit or shares[-1:])[0][1].append(edit)
    return [made(source, [it for it in beside if it not in placed], placed) for beside, placed in shares]


def may_stand_beside(source: Source, edit: Edit) -> bool:
    names = list(edit.changes)
    is_free = all(source.functions[it][1].may_have_twin() for it in names)
    return len(names) == 1 and is_free and source.proofs_of(names[0]) is not None


def in_place_of_control(source: Source, edits: List[Edit]) -> List[Edit]:
    """Returns those that stand in place since each then needs no control: the one edit of a function
    with proof files that no other of these functions calls."""
    of = [next(iter(it.changes)) for it in edits]
    return [
        edit
        for edit, name in zip(edits, of)
        if of.count(name) == 1
        and source.proofs_of(name)
        and not any(name in source.rests_on(it) for it in of)
    ]


def may_join(source: Source, edit: Edit, beside: List[Edit], placed: List[Edit]) -> bool:
    """Returns whether an edit may stand in place in a check with these."""
    needed = {it for other in beside for name in other.changes for it in [name, *source.rests_on(name)]}
    return not needed & set(edit.changes) and not any(meet(source, edit, it) for it in placed)


def meet(source: Source, one: Edit, other: Edit) -> bool:
    return any(
        a == b or a in source.reached(b) or b in source.reached(a)
        for a in one.changes
        for b in other.changes
    )


def made(source: Source, beside: List[Edit], placed: List[Edit]) -> Round:
    """Makes a round of edits that stand beside the right bodies and others that stand in place."""
    found = Round([*beside, *placed], {}, {}, {})
    for number, edit in enumerate(beside, 1):
        name, change = next(iter(edit.changes.items()))
        proofs = source.proofs_of(name) or []
        if proofs and name not in found.controls:
            right = change._replace(now=change.was)
            found.controls[name] = copy_of(f"{name}_right_{number}", right, proofs)
        found.copies[edit.name] = copy_of(f"{name}_mutant_{number}", change, proofs)
    changes = [it for edit in placed for it in edit.changes.values()]
    for path in {*(it.path for it in found.all_copies()), *(it.path for it in changes)}:
        text = bodies.read(f"{source.folder}/{path}")
        found.texts[path] = with_all(text, found.all_copies(), changes, path)
    return found


def copy_of(name: str, change: Change, proofs: List[str]) -> Copy:
    text = change.now.named(name.rpartition("::")[2])
    return Copy(name, change.path, change.was, text, proofs)


def with_all(text: str, copies: List[Copy], changes: List[Change], path: str) -> str:
    """Returns the text of a file with its copies, each after the function that it is a copy of, and
    its changes, each in its place."""
    parts = [(it.original.end, it.original.end, f"\n{it.text}") for it in copies if it.path == path]
    parts += [(it.was.start, it.was.end, it.now.named(it.now.name)) for it in changes if it.path == path]
    for start, end, new in sorted(parts, key=lambda it: -it[0]):
        text = text[:start] + new + text[end:]
    return text
