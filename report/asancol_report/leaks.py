"""What leaks: at one place, in however many processes, and summed up: if leaks are no reports, a line has how much of
them there is."""

from __future__ import annotations

from typing import Callable, Dict, Hashable, Iterable, List, NamedTuple, Tuple

from .class_names import LEAK
from .words import plural

# What happens to leaks.
SUMMARY, NO, YES = "summary", "no", "yes"


class Leaks(NamedTuple):
    """How much leaks, and at how many places."""

    places: int = 0
    blocks: int = 0
    bytes: int = 0

    def __str__(self) -> str:
        places = plural(self.places, "place")
        return f"leaks: {plural(self.bytes, 'byte')} in {plural(self.blocks, 'block')} at {places}"


def total(all_leaks: Iterable[Leaks]) -> Leaks:
    return Leaks(*map(sum, zip(Leaks(), *all_leaks)))


def text_of_runs(all_leaks: Iterable[Leaks]) -> str:
    """Returns what several runs have lost. How many of their places are the same is not known."""
    runs = list(all_leaks)
    text, most = str(total(runs)), max((lost.places for lost in runs), default=0)
    return text if most == total(runs).places else text.replace(" at ", f" at {most} to ")


def at_one_place(all_leaks: Iterable[Leaks]) -> Leaks:
    """Returns what several processes or runs have lost at the same place."""
    return total(all_leaks)._replace(places=1)


def leak_text(class_name: str, lost: Leaks) -> str:
    """Returns LeakSanitizer's words."""
    kind = "Direct" if class_name == LEAK else "Indirect"
    return f"{kind} leak of {lost.bytes} byte(s) in {lost.blocks} object(s)"


class Lost:
    """What one place has lost. A process may say it in each of its segments: the last time counts."""

    __slots__ = ("before", "process", "last")

    def __init__(self) -> None:
        self.before = Leaks()  # of processes before this one
        self.process = 0
        self.last = Leaks()

    def take(self, process: int, blocks: int, size: int) -> None:
        if process != self.process:
            self.before = total([self.before, self.last])
            self.process = process
        self.last = Leaks(1, blocks, size)

    @property
    def all(self) -> Leaks:
        return at_one_place([self.before, self.last])


class Sum:
    """The leaks of a run, by their class and by the properties shared at one place."""

    def __init__(self) -> None:
        self.lost: Dict[Tuple[str, Hashable], Lost] = {}

    def take(self, class_name: str, place: Hashable, process: int, blocks: int, size: int) -> None:
        self.lost.setdefault((class_name, place), Lost()).take(process, blocks, size)

    def total(self, counts: Callable[[str, Hashable], bool]) -> Leaks:
        """Returns what all places have lost that count. A place that leaks in two ways is one."""
        places: Dict[Hashable, List[Leaks]] = {}
        for (class_name, place), lost in self.lost.items():
            if counts(class_name, place):
                places.setdefault(place, []).append(lost.all)
        return total(map(at_one_place, places.values()))
