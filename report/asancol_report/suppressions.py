"""Suppressions: which findings do not count, because somebody has said so. Of crashes, only those whose class a line
names: a line for a whole library is not meant for them."""

from __future__ import annotations

import re
from typing import Iterable, List, NamedTuple, Optional, Set, Tuple, Union

from .class_names import CLASSES
from .crashes import CRASH_CLASSES
from .findings import Finding, Frame
from .patterns import path_pattern, pattern, whole_pattern
from .words import printable, stable_path, UNPRINTABLE

# What a pattern is compared with.
FUNCTION, SOURCE, OBJECT = "fun", "src", "obj"
# Lines of the sanitizers for calls of the C library: by the library that calls it, by any frame, and by the called
# function.
CALLED_FROM, VIA_OBJECT, VIA_FUNCTION = "called_from_lib", "interceptor_via_lib", "interceptor_via_fun"
CALL = "interceptor_name"
OF_CALLS = (CALLED_FROM, VIA_OBJECT, VIA_FUNCTION, CALL)
# AddressSanitizer's names for a class.
CLASS_NAMES = {"alloc_dealloc_mismatch": "alloc-dealloc-mismatch", "odr_violation": "odr-violation"}
ANY_CLASS = "*"
KNOWN_CLASSES = (*CLASSES, *CRASH_CLASSES)
# A line that names the place of a report, frame by frame.
PLACE = "at"
FORMS = ("CLASS:PATTERN, *:PATTERN, fun:PATTERN, src:PATTERN, obj:PATTERN, called_from_lib:PATTERN or "
         "at:CLASS:FUNCTION@FILE")


def unknown(kind: str, words: Iterable[str]) -> str:
    """Returns the message about a word that is no class, nor another of these."""
    import difflib

    near = difflib.get_close_matches(kind, list(words), 1)
    return f"there is no class {printable(kind)}; {f'did you mean {near[0]}?' if near else f'a line is {FORMS}'}"


class Rule:
    """A line of a file of suppressions: a class or the examined property, and a pattern. It matches if any frame
    does."""

    def __init__(self, line: str) -> None:
        self.line = line
        kind, colon, text = line.partition(":")
        self.kind = CLASS_NAMES.get(kind, kind)
        kinds = (*KNOWN_CLASSES, ANY_CLASS, FUNCTION, SOURCE, OBJECT, *OF_CALLS)
        if not colon:
            raise ValueError(f"not {FORMS}")
        if self.kind not in kinds:
            raise ValueError(unknown(self.kind, kinds))
        if not text:
            raise ValueError("the pattern is empty")
        self.search = pattern(text).search
        self.is_used = False

    def words(self, frame: Frame) -> Tuple[str, ...]:
        if self.kind in (FUNCTION, VIA_FUNCTION):
            return (frame.function,)
        if self.kind == SOURCE:
            return (frame.file,)
        if self.kind in (OBJECT, CALLED_FROM, VIA_OBJECT):
            return (frame.module,)
        return (frame.function, frame.file, frame.module)

    def matches(self, finding: Finding) -> bool:
        if self.kind == CALL:
            return bool(finding.call and self.search(finding.call))
        if self.kind not in finding.classes and (self.kind in KNOWN_CLASSES or finding.class_name in CRASH_CLASSES):
            return False
        return any(word and self.search(word) for frame in self.frames(finding) for word in self.words(frame))

    def frames(self, finding: Finding) -> Tuple[Frame, ...]:
        """Returns those that are looked at. Of a call of the C library these are of the access alone."""
        if self.kind not in OF_CALLS:
            return (*finding.stack, *finding.allocated, *finding.freed)
        if not finding.call:
            return ()
        return tuple(finding.stack[:1] if self.kind == CALLED_FROM else finding.stack)


class PlaceRule:
    """A line that matches frame by frame, from the one that stands for the access outwards."""

    def __init__(self, line: str) -> None:
        self.line = line
        self.class_name, _, text = line[len(PLACE) + 1:].partition(":")
        if self.class_name not in (*KNOWN_CLASSES, ANY_CLASS):
            raise ValueError(unknown(self.class_name, KNOWN_CLASSES))
        self.patterns = [self.read(frame.strip()) for frame in text.split(";")]
        self.is_used = False

    @staticmethod
    def read(frame: str) -> Tuple[re.Pattern[str], re.Pattern[str]]:
        """Reads FUNCTION@FILE, in which one of both may be missing."""
        function, _, file = frame.rpartition("@") if "@" in frame else (frame, "", "")
        if not function and not file:
            raise ValueError("a frame names neither a function nor a file")
        return whole_pattern(function or "*"), path_pattern(file or "*")

    def matches(self, finding: Finding) -> bool:
        frames = finding.rule_stack
        is_any = self.class_name == ANY_CLASS and finding.class_name not in CRASH_CLASSES
        if not (is_any or self.class_name in finding.classes) or len(frames) < len(self.patterns):
            return False
        return all(function.match(frame.function) and file.match(frame.file or frame.module)
                   for (function, file), frame in zip(self.patterns, frames))


def rule_of(line: str) -> Union[Rule, PlaceRule]:
    """Reads a line. ValueError, if it has no form that is known."""
    return PlaceRule(line) if line.startswith(PLACE + ":") else Rule(line)


# Callers of a leak that its line names: wrappers of malloc rarely call more than one another.
LEAK_CALLERS = 2


def frames_of_rule(finding: Finding) -> List[Frame]:
    """Returns those that tell a finding from others: the place, and of a leak some callers."""
    callers, frames = LEAK_CALLERS if finding.is_leak else 0, list(finding.own_stack)
    for frame in finding.rule_stack[len(frames):]:
        if callers == 0:
            break
        frames.append(frame)
        callers -= not frame.is_inlined
    return frames


def suppression_of(finding: Finding, root: str) -> str:
    """Returns the line that suppresses a finding and no others, or nothing if its place is not known."""
    frames = [frame_text(frame.function) + "@" + frame_text(stable_path(frame.file or frame.module, root))
              for frame in frames_of_rule(finding) if frame.function or frame.module]
    return f"{PLACE}:{finding.class_name}:{';'.join(frames)}" if frames else ""


def frame_text(word: str) -> str:
    """Returns a name as it can stand in a line: what would end it there is replaced by a star."""
    return re.sub("[;@]", "*", UNPRINTABLE.sub("*", word))


# What stands before a line that --gen-suppressions has printed. It may be copied too.
PRINTED = "suppression:"


class Wrong(NamedTuple):
    """A line that can't be read: its place, and its mistake."""

    place: str
    text: str

    def __str__(self) -> str:
        return f"{self.place}: {self.text}"


class Suppressions:
    """All rules of some files, and of programs."""

    def __init__(self) -> None:
        self.rules: List[Union[Rule, PlaceRule]] = []
        self.of_programs: Set[str] = set()  # their lines

    def read(self, path: str, may_be_unused: bool) -> List[Wrong]:
        """Reads a file, and returns what can't be read. The other lines are used."""
        wrong: List[Wrong] = []
        with open(path, encoding="utf-8", errors="surrogateescape") as file:
            for number, line in enumerate(file, 1):
                text = line.strip().removeprefix(PRINTED).lstrip()
                if not text or text.startswith("#"):
                    continue
                try:
                    self.rules.append(rule_of(text))
                    self.rules[-1].is_used |= may_be_unused
                except ValueError as error:
                    wrong.append(Wrong(f"{path}:{number}", f"{printable(text)}: {error}"))
        return wrong

    def take(self, line: str) -> Optional[Wrong]:
        """Takes a line that a program has given, which need not match anything; and returns it if it can't be read."""
        if line in self.of_programs:
            return None
        self.of_programs.add(line)
        try:
            rule = rule_of(line.strip())
        except ValueError as error:
            return Wrong("a suppression of the program", f"{printable(line)}: {error}")
        rule.is_used = True
        self.rules.append(rule)
        return None

    def match(self, finding: Finding) -> Optional[Union[Rule, PlaceRule]]:
        return next((rule for rule in self.rules if rule.matches(finding)), None)

    def rule_of(self, finding: Finding) -> str:
        """Returns the line that suppresses a finding, or nothing."""
        rule = self.match(finding)
        return rule.line if rule else ""

    def apply(self, findings: Iterable[Finding]) -> None:
        for finding in findings:
            rule = self.match(finding)
            if rule:
                rule.is_used = True
                finding.suppression = rule.line

    def unused(self) -> List[str]:
        return [rule.line for rule in self.rules if not rule.is_used]
