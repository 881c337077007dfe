#!/usr/bin/env python3
"""Tries the mutants of crates, several in one check.

usage: tools/mutants.py [--lanes N] [--as-proved] [--anew] [CRATE..]

A mutant is made by an edit, `crates/CRATE/mutants/NAME.edit` (`edits.py`). First what a crate's
mutants rest on is checked in its base (`rooms.py`), over the libraries of those below it. Then come
rounds: each is one check of several mutants, most of them beside the right ones (`rounds.py`), in a
copy of the base. Each has to be refused by its own function's line, in a check of which all else is
proved (`verdicts.py`).

Each edit has a line: whether it was refused, and by which clause or goal. What a round says nothing
clear of is tried alone, first its function and then the whole crate. So are edits of constants,
with the functions that name them, and of definitions and proofs. It is NOT REFUSED if the crate is
proved with it. A BAD EDIT can't be made, or the prover can't read what it makes.

A mutant refused earlier, by the same toolchain, of the same files of the crate and of those below
it, is not tried again (`kept.py`): its line has `(kept)`, and another line says how many were tried
in this run. `--anew` tries all. This many checks run side by side as there are processors, if
`--lanes` says no other number. The libraries are made first, by `rt lib`. With `--as-proved` they
are those that `rt ci` makes beside this: standard input has the name of each crate, on a line, once
that has proved it. With no CRATE the edits of all crates are tried. The last line is
`N passed, M failed`, and the status is 0 only if nothing failed.
"""

import argparse
import contextlib
import os
import sys
import threading
import time
from concurrent.futures import ThreadPoolExecutor
from functools import partial
from typing import Callable, Dict, Iterator, List, Optional, Set, Tuple

import bodies
import gate
import kept
import rounds
from edits import Edit, Source, edit_files
from gate import TOP
from rooms import Base, Libraries, Ran, bases
from rounds import Round
from verdicts import BAD, REFUSED, UNTRIED, Answer, Verdicts, whole_crate

# The remaining work on a crate.
Task = Callable[[], None]

# How many functions the list of the dearest has.
DEAREST = 10


class Crate:
    """A crate with edits: its base, and the key of each edit's answer."""

    def __init__(self, all_bases: str, name: str) -> None:
        self.name = name
        self.base = Base(all_bases, name)
        self.source = Source(name, self.base.folder)
        self.edits = [self.source.edit(it) for it in edit_files(f"{TOP}/crates/{name}")]
        self.sum = self.sum_now()
        self.keys = {it.name: kept.key_of(self.sum, it.name, it.said) for it in self.edits}
        # The edits that are to be tried, how many of the tasks that try them are open, and the end.
        self.left: List[Edit] = []
        self.open = 0
        self.is_over = threading.Event()

    def sum_now(self) -> str:
        """Returns a sum of all that a check of the crate reads: of crates.txt its line, and those of
        the crates below it."""
        listed = gate.lines_listed()
        lines = sorted(listed[it] for it in [self.name, *self.base.below])
        return kept.sum_of(TOP, lines, self.base.files())

    def rests_on(self) -> Optional[List[str]]:
        """Returns paths of the functions that those to be tried call, or None if an edit is of more
        than functions and constants."""
        tried = [name for edit in self.left for name in edit.tried()]
        if not all(it.tried() for it in self.left):
            return None
        names = {it for name in tried for it in self.source.called(name) | self.source.of_impl(name)}
        return sorted({rounds.path_of(it, self.source.functions[it][1]) for it in names})


class Run:
    """All that is tried in this run."""

    def __init__(self, kept_answers: kept.Kept) -> None:
        self.kept = kept_answers
        self.lock = threading.Lock()
        self.answers: List[Answer] = []
        self.failed: List[str] = []
        # Of each crate: the processor seconds of each check, and how many edits were in it. Of each
        # function of a round: its seconds.
        self.costs: Dict[str, List[Tuple[float, int]]] = {}
        self.each: Dict[str, float] = {}

    def say(self, crate: Crate, edit: Edit, answer: Answer) -> None:
        """Notes and prints what became of an edit."""
        of_old = " (kept)" if answer.is_kept else ""
        with self.lock:
            self.answers.append(answer)
            if answer.kind != REFUSED:
                self.failed.append(f"{crate.name}/{edit.name}")
            print(f"{crate.name}/{edit.name}: {answer.kind}{of_old}: {answer.why}", flush=True)
        if answer.kind == REFUSED and not answer.is_kept:
            self.kept.put(crate.keys[edit.name], answer.why)

    def take_kept(self, crate: Crate) -> None:
        """Reports the known results of a crate's edits, and leaves the others to be tried."""
        for edit in crate.edits:
            why = self.kept.get(crate.keys[edit.name])
            if edit.bad:
                self.say(crate, edit, Answer(BAD, edit.bad))
            elif why is not None:
                self.say(crate, edit, Answer(REFUSED, why, True))
            else:
                crate.left.append(edit)

    def leave(self, crate: Crate, why: str) -> None:
        """Says of all edits of a crate that they are not tried."""
        for edit in crate.left:
            self.say(crate, edit, Answer(UNTRIED, why))

    def begin(self, crate: Crate, pool: ThreadPoolExecutor) -> None:
        """Checks what a crate's mutants rest on, and starts what tries them."""
        tasks: List[Task] = []
        with self.watched(crate):
            made = crate.base.prove(crate.rests_on())
            self.count(crate, made, 0)
            if made.status or crate.sum_now() != crate.sum:
                print("\n".join(made.lines[-12:]), flush=True)
                self.leave(crate, "the crate is not proved as it stands, or was changed meanwhile")
            else:
                tasks = self.tasks(crate)
        crate.open = len(tasks)
        if not tasks:
            crate.is_over.set()
        for task in tasks:
            pool.submit(self.go_on, crate, task)

    def tasks(self, crate: Crate) -> List[Task]:
        """Returns what tries a crate's edits."""
        fit = [it for it in crate.left if it.changes]
        found = [partial(self.round, crate, it) for it in rounds.shared_out(crate.source, fit)]
        return [*found, *(partial(self.single, crate, it) for it in crate.left if not it.changes)]

    def go_on(self, crate: Crate, task: Task) -> None:
        """Does one of a crate's tasks."""
        with self.watched(crate):
            task()
        with self.lock:
            crate.open -= 1
            is_last = crate.open == 0
        if is_last:
            if not crate.base.is_unchanged():
                self.failed.append(f"{crate.name} (the checks changed each other's files)")
            crate.is_over.set()

    @contextlib.contextmanager
    def watched(self, crate: Crate) -> Iterator[None]:
        """Notes whatever goes wrong: something was not tried."""
        try:
            yield
        except Exception as error:
            with self.lock:
                self.failed.append(f"{crate.name} ({type(error).__name__}: {error})")

    def check(self, crate: Crate, tried: Round, is_whole: bool) -> Ran:
        """Checks a crate with the texts of a round: what the round is of, or all."""
        with crate.base.room(tried.texts, tried.all_copies()) as folder:
            made = crate.base.check(folder, None if is_whole else tried.paths())
        self.count(crate, made, len(tried.edits))
        return made

    def count(self, crate: Crate, made: Ran, edits: int) -> None:
        """Counts a check of a crate, of this many edits or of none."""
        with self.lock:
            self.costs.setdefault(crate.name, []).append((made.seconds, edits))
            self.each.update(made.each if edits else {})

    def round(self, crate: Crate, tried: Round) -> None:
        """Tries a round, and then alone what it says nothing clear of. If it does not come to proofs
        for bodies that can't be read, the others are tried again without them."""
        said = Verdicts(crate.name, tried, self.check(crate, tried, False))
        unread = said.unread()
        for what in said.troubles():
            print(f"{crate.name}: {what}", flush=True)
        if not said.has_ended and 0 < len(unread) < len(tried.edits):
            rest = [it for it in tried.edits if it.name not in unread]
            for it in rounds.shared_out(crate.source, rest):
                self.round(crate, it)
            tried = tried._replace(edits=[it for it in tried.edits if it.name in unread])
        answers = [(it, said.answer(it)) for it in tried.edits]
        for edit, answer in answers:
            if answer:
                self.say(crate, edit, answer)
        for edit, answer in answers:
            if not answer:
                self.single(crate, edit)

    def single(self, crate: Crate, edit: Edit) -> None:
        """Tries one edit in its place: its functions, and then the whole crate."""
        texts = {it.path: bodies.read(f"{crate.base.folder}/{it.path}") for it in edit.tried().values()}
        alone = Round([edit._replace(changes=edit.tried())], {**texts, **edit.texts}, {}, {})
        if edit.tried():
            made = self.check(crate, alone, False)
            answer = Verdicts(crate.name, alone, made).answer(alone.edits[0])
            if answer:
                self.say(crate, edit, answer)
                return
        self.say(crate, edit, whole_crate(edit, self.check(crate, alone, True)))


def try_all(run: Run, lanes: int, crates: List[Crate], libraries: Libraries) -> None:
    """Tries the edits of these crates, of each once the libraries below it are there."""
    waiting = [it for it in crates if it.left]
    started: List[Crate] = []
    there: Set[str] = set()
    with ThreadPoolExecutor(lanes) as pool:
        while True:
            for crate in [it for it in waiting if there.issuperset(it.base.below)]:
                waiting.remove(crate)
                started.append(crate)
                pool.submit(run.begin, crate, pool)
            name = libraries.next() if waiting else None
            if name is None:
                break
            there.add(name)
        for crate in waiting:
            run.leave(crate, "a crate below it is not proved")
        for crate in started:
            crate.is_over.wait()


def report(run: Run, seconds: float) -> int:
    """Prints what the run came to, and returns the status."""
    for name, checks in sorted(run.costs.items()):
        proof = sum(seconds for seconds, edits in checks if not edits)
        each = [f"{edits} in {seconds:.0f}" for seconds, edits in checks if edits]
        of_rounds = ", ".join(each) or "none"
        print(f"{name}: processor seconds: what they rest on {proof:.0f}; mutants {of_rounds}")
    dear = sorted(run.each.items(), key=lambda it: -it[1])[:DEAREST]
    if dear:
        print("dearest, in seconds: " + ", ".join(f"{name} {seconds:.0f}" for name, seconds in dear))
    tried = sum(not it.is_kept for it in run.answers)
    print(f"tried in this run: {tried} of {len(run.answers)}; {seconds:.0f} s")
    if run.failed:
        print(f"FAILED: {' '.join(sorted(run.failed))}")
    passed = sum(it.kind == REFUSED for it in run.answers)
    print(f"{passed} passed, {len(run.failed)} failed")
    return 1 if run.failed or not run.answers else 0


def main() -> int:
    usage, about = (__doc__ or "").split("\n\n", 2)[1:]
    words = argparse.ArgumentParser(
        usage=usage.partition(": ")[2],
        description=about,
        formatter_class=argparse.RawDescriptionHelpFormatter,
    )
    lanes = len(os.sched_getaffinity(0))
    words.add_argument("--lanes", type=int, default=lanes, help="how many checks run side by side")
    words.add_argument("--as-proved", action="store_true", help="take the libraries that rt ci makes")
    words.add_argument("--anew", action="store_true", help="try also what was refused before")
    words.add_argument("crates", nargs="*", metavar="CRATE")
    given = words.parse_args()
    listed = gate.crates_listed()
    unknown = [it for it in given.crates if it not in listed]
    if unknown:
        words.error(f"no crate {unknown[0]} in crates.txt")
    began = time.monotonic()
    names = [it for it in given.crates or listed if edit_files(f"{TOP}/crates/{it}")]
    run = Run(kept.Kept(given.anew))
    with bases() as all_bases:
        crates = [Crate(all_bases, it) for it in names]
        for crate in crates:
            run.take_kept(crate)
        below = {it for crate in crates if crate.left for it in crate.base.below}
        made = [it for it in gate.lowest_first(listed) if it in below]
        as_proved = sys.stdin if given.as_proved else None
        try_all(run, given.lanes, crates, Libraries(all_bases, made, as_proved))
    return report(run, time.monotonic() - began)


if __name__ == "__main__":
    sys.exit(main())
