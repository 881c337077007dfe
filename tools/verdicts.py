"""What a check says of the mutants in it.

An edit is refused only if the prover refuses its function for a reason of that function's own, in a
check of which all else is proved. A line that says that the function calls an unproved one counts for nothing,
since another edit of the same check may have broken that.
"""

import re
from typing import Dict, List, NamedTuple, Optional, Set, Tuple

import bodies
from edits import Edit, path_name
from rooms import Ran
from rounds import Round

REFUSED, PROVED, BAD, UNTRIED = "refused", "NOT REFUSED", "BAD EDIT", "NOT TRIED"

VERDICT = re.compile(r"(\w+) (\S+): ((?:not )?proved|no proof|could not tell)\b(.*)")
ENDED = re.compile(r"only=\d+ proved=\d+|logic=.*")
PLACE = re.compile(r"(note: )?(?:\./)?(\S+?):(?:(\d+):\d+:)? (.*)")
NOT_PROVED = re.compile(r"(?:not proved|no proof)(?!.*\bit (?:calls `|waits for ))")
# What a proof file says of a name that the mutant no longer has.
NAME_GONE = re.compile(r"has no field|is not in scope|has no `|was not admitted")
# What the prover says of a text that it cannot read, which tries no clause.
UNREAD = re.compile(
    r"error(?:\[|: (?!`)|.*(?:is not in scope|has no field|is no name|operand is missing"
    r"|expected the end|cannot continue))"
)
LIMIT = re.compile(
    r"antt ran out of (?:stack|the (?:steps|memory) that the check of one declaration may)"
    r"|(?:outgrew the memory limit|stopped at the step limit) \("
)
# How much of a message is shown.
SHOWN = 160


class Answer(NamedTuple):
    """What became of an edit, and by which clause or goal."""

    kind: str
    why: str
    is_kept: bool = False


class Message(NamedTuple):
    """A line that reports a mistake at a place, or with line 0 in a file."""

    path: str
    line: int
    says: str


def messages_in(lines: List[str]) -> List[Message]:
    places = [PLACE.match(it) for it in lines]
    said = [it for it in places if it and (it[1] or it[4].startswith("error"))]
    return [Message(it[2], int(it[3] or 0), it[4]) for it in said]


class Verdicts:
    """What the check of a round says of each function, by its name by file."""

    def __init__(self, crate: str, tried: Round, ran: Ran) -> None:
        self.tried = tried
        self.status = ran.status
        self.has_ended = any(ENDED.match(it) for it in ran.lines)
        self.messages = messages_in(ran.lines)
        found = [VERDICT.match(it) for it in ran.lines]
        self.printed = {it[2]: it[3] + it[4] for it in found if it and it[1] == "fn"}
        # Where each function of the changed files stands.
        self.places: Dict[str, Tuple[str, range]] = {}
        for path, text in tried.texts.items():
            for it in bodies.functions_in(text) if path.endswith(".rt") else ():
                first = text.count("\n", 0, it.start) + 1
                lines = range(first, text.count("\n", 0, it.end) + 1)
                self.places[path_name(crate, path, it)] = (path, lines)

    def name_of(self, name: str) -> str:
        """Returns the name under which a check prints a function: there a method stands in the
        module of its type, and the type may have its parameters. If it prints none, it is that by
        file."""
        if name in self.printed or "::" not in name:
            return name
        kind, function = name.split("::")[-2:]
        method = re.compile(rf"::{re.escape(kind)}(?:\+[^:]*)?::{function}$")
        like = [it for it in self.printed if method.search(it)]
        return like[0] if len(like) == 1 else name

    def messages_on(self, name: str) -> List[Message]:
        """Returns the lines on a function's body, its clauses and its proof files."""
        path, lines = self.places[name]
        parts = self.name_of(name).split("::")[1:]
        above, last = "/".join(["proofs", *parts[:-1]]), parts[-1]
        folders = (f"{above}/{last}/", f"{above}/fn/{last}/")
        return [
            it
            for it in self.messages
            if it.path == path and it.line in lines or it.path.startswith(folders)
        ]

    def is_proved(self, name: str) -> bool:
        return self.printed.get(self.name_of(name), "").startswith("proved")

    def others_not_proved(self) -> List[str]:
        """Returns the unproved goals, as the check prints them, though it is as it was. A control
        counts for its own edits alone, and a closure for its function."""
        names = [it for edit in self.tried.edits for it in self.tried.changed(edit)]
        names += [it.name for it in self.tried.controls.values()]
        printed = {self.name_of(it) for it in names}
        inside = tuple(f"::{it.rpartition('::')[2]}::" for it in names)
        left = {
            it: said
            for it, said in self.printed.items()
            if it not in printed and not any(part in it for part in inside)
        }
        found = [it for it, said in left.items() if not said.startswith("proved")]
        of_names = [it for name in names for it in self.messages_on(name)]
        errors = [it for it in self.messages if it.says.startswith("error")]
        return found + [f"{it.path}:{it.line}" for it in errors if it not in of_names]

    def troubles(self) -> List[str]:
        """Returns what keeps the round from saying something clear."""
        if not self.has_ended:
            return [f"a round came to no proofs: rt check ended with status {self.status}"]
        found = [f"{it} is not proved, though it is as it was" for it in self.others_not_proved()]
        for name, control in self.tried.controls.items():
            if not self.is_proved(control.name):
                why = self.why(control.name, "no verdict")
                found.append(f"a copy of the right {name} is not proved: {why}")
        return found

    def unread(self) -> Set[str]:
        """Returns the edits with an error in their bodies, for which a check may not come to
        proofs."""
        found = set()
        for edit in self.tried.edits:
            for name in self.tried.changed(edit):
                path, _ = self.places[name]
                said = [it.says for it in self.messages_on(name) if it.path == path]
                found |= {edit.name for it in said if UNREAD.match(it)}
        return found

    def answer(self, edit: Edit) -> Optional[Answer]:
        """Returns that an edit is refused, or None if that is not clear here."""
        control = self.tried.controls.get(next(iter(edit.changes)))
        if self.status != 1 or not self.has_ended or self.others_not_proved():
            return None
        if (control and not self.is_proved(control.name)) or edit.name in self.unread():
            return None
        for name in self.tried.changed(edit):
            for said in self.said_of(name, edit):
                if NOT_PROVED.match(said):
                    return Answer(REFUSED, self.why(name, said))
        return None

    def said_of(self, name: str, edit: Edit) -> List[str]:
        """Returns what the check says of a function that an edit changes, and of its closures if no
        other edit can have broken one of such a name."""
        own = self.printed.get(self.name_of(name), "")
        inside = f"::{name.rpartition('::')[2]}::"
        is_clear = edit.name in self.tried.copies or self.tried.edits == [edit]
        return [own, *(said for it, said in self.printed.items() if is_clear and inside in it)]

    def why(self, name: str, verdict: str) -> str:
        """Returns the first line on a function, and of those on names that went only if no other
        is."""
        said = self.messages_on(name)
        path, _ = self.places[name]
        more = [it for it in said if it.path == path or not NAME_GONE.search(it.says)]
        if said and not more:
            why = f"only as its proof file names what the edit took away: {said[0].says}"
        else:
            why = more[0].says if more else verdict
        return f"{why.removeprefix('error: ')[:SHOWN]}"


def whole_crate(edit: Edit, ran: Ran) -> Answer:
    """Returns what the check of a whole crate says of the one edit that was made in it."""
    if ran.status == 0:
        return Answer(PROVED, "the crate is proved with it")
    messages = messages_in(ran.lines)
    for it in messages:
        is_code = it.path in edit.texts or it.path.startswith(("src/", "specs/"))
        if is_code and UNREAD.match(it.says):
            return Answer(BAD, f"the prover cannot read it: {it.says[:SHOWN]}")
    if ran.status == 1 and "logic=not-proved" in ran.lines:
        first = messages[0].says if messages else ""
        return Answer(REFUSED, f"the whole crate: {first.removeprefix('error: ')[:SHOWN]}")
    if ran.status == 3 and any(LIMIT.search(it) for it in ran.lines):
        return Answer(REFUSED, "only by a limit of the prover")
    errors = [it for it in ran.lines if re.search(r"\berror\[", it)]
    if ran.status == 1 and errors:
        return Answer(BAD, f"it does not compile: {errors[0][:SHOWN]}")
    return Answer(UNTRIED, f"its check ended with status {ran.status}")
