"""GCC's tests, by their dg- directives, at the usual levels."""

import fnmatch
import functools
import glob
import os
import re
from typing import Iterator, List, NamedTuple, Sequence

from arm import CROSS
from beside.compare import LEFT_OUT, OTHER, SAME, Job, Verdict, compare_all
from beside.execute import FINDS_RETURNS, IS_ARM, RETURNS, SOURCES
from beside.programs import Kept, Program, folder_for_a_test, version_of
from support import Compiler

TREE = f"{SOURCES}gcc-12/gcc/testsuite"
# AddressSanitizer takes seconds to start under an emulator.
LEVELS = ("-O0", "-O2") if IS_ARM else ("-O0", "-O1", "-O2", "-O3", "-Os")

DIRECTIVE = re.compile(r"\{ (dg-[a-z-]+) (.*?)\s*\}\s*(?:\*/)?\s*$", re.M)
# The words of targets that this one is.
TARGETS = {"alloca", "clone", "fopenmp", "fpic", "fstack_protector", "lp64", "pthread", "pthread_h", "setrlimit",
           "swapcontext", "c++11", *([] if IS_ARM else ["sse2_runtime"])}
MACHINE = "aarch64-unknown-linux-gnu" if IS_ARM else "x86_64-pc-linux-gnu"


class Directive(NamedTuple):
    name: str
    arguments: List[str]  # as in the text, without their quotes or braces


def arguments_of(text: str) -> List[str]:
    """The words of a directive: in quotes, in braces, or bare."""
    found, at = [], 0
    while at < len(text):
        if text[at] == '"':
            end = text.index('"', at + 1)
            found.append(text[at + 1:end])
        elif text[at] == "{":
            depth, end = 1, at
            while depth:
                end += 1
                depth += {"{": 1, "}": -1}.get(text[end], 0)
            found.append(text[at + 1:end].strip())
        elif text[at].isspace():
            end = at
        else:
            end = next((it for it in range(at, len(text)) if text[it].isspace()), len(text))
            found.append(text[at:end])
        at = end + 1
    return found


def directives_of(text: str) -> List[Directive]:
    return [Directive(name, arguments_of(rest)) for name, rest in DIRECTIVE.findall(text)]


def is_target(text: str) -> bool:
    """Whether a list of targets, as `{ ilp32 || lp64 }`, has this one."""
    names = re.split(r"[\s{}|]+", text)
    return any(it in TARGETS or fnmatch.fnmatchcase(MACHINE, it) for it in names)


def applies(directive: Directive, after: int) -> bool:
    """Whether a directive holds here: its target, if it has one, comes after this many arguments."""
    rest = directive.arguments[after:]
    return not rest or not rest[0].startswith("target") or is_target(rest[0][len("target"):])


def has_flags(flags: Sequence[str], text: str) -> bool:
    """Whether one of the texts in a list is `*`, or its first word is among the flags."""
    firsts = [it.split()[0] for it in arguments_of(text) if it]
    return any(it == "*" or it in flags for it in firsts)


def is_skipped(directive: Directive, flags: Sequence[str]) -> bool:
    """Whether `dg-skip-if REASON TARGETS [FLAGS [BUT FLAGS]]` leaves out a level."""
    _, targets, *rest = directive.arguments
    if not is_target(targets):
        return False
    return not rest or (has_flags(flags, rest[0]) and not (rest[1:] and has_flags(flags, rest[1])))


class Test(NamedTuple):
    """A file in one language."""

    source: str
    is_cpp: bool
    directives: List[Directive]

    @property
    def name(self) -> str:
        return f"{os.path.relpath(self.source, TREE)}{' in C++' if self.is_cpp and self.source.endswith('.c') else ''}"

    def given(self, name: str, after: int) -> List[List[str]]:
        """The arguments of the directives of a name that hold here."""
        return [it.arguments for it in self.directives if it.name == name and applies(it, after)]

    @property
    def is_run(self) -> bool:
        return any(it[0] == "run" for it in self.given("dg-do", 1))

    @property
    def options(self) -> str:
        return ":".join(it[1] for it in self.given("dg-set-target-env-var", 2) if it[0] == "ASAN_OPTIONS")

    def flags(self) -> List[str]:
        """The flags of its directives."""
        options = self.given("dg-options", 1)[-1:] + self.given("dg-additional-options", 1)
        return [word for arguments in options for word in arguments[0].split()]

    def levels(self) -> List[str]:
        skips = [it for it in self.directives if it.name == "dg-skip-if"]
        return [it for it in LEVELS if not any(is_skipped(skip, [it, *self.flags()]) for skip in skips)]


def tests() -> Iterator[Test]:
    for pattern, languages in (("c-c++-common/asan/*.c", (False, True)), ("gcc.dg/asan/*.c", (False,)),
                               ("g++.dg/asan/*.C", (True,))):
        for source in sorted(glob.glob(f"{TREE}/{pattern}")):
            with open(source, encoding="utf-8", errors="replace") as file:
                directives = directives_of(file.read())
            if os.path.basename(source) != "asan_test.C":  # that one is the unit tests
                yield from (Test(source, it, directives) for it in languages)


def check_compiled(compiler: Compiler, test: Test) -> List[Verdict]:
    """Whether a test that is only compiled is, at each of its levels, if it is with AddressSanitizer. What the compiler
    then has in its dumps is not asked."""
    verdicts = []
    for level in test.levels():
        program = Program(compiler, test.is_cpp, ["-g", "-w", level, *test.flags(), "-c", test.source])
        with folder_for_a_test() as folder:
            real, recorded = (program.build(way, folder) for way in ("real", "recorded"))
        wrong = Verdict(OTHER, f"is {'' if recorded else 'not '}compiled")
        verdicts.append((Verdict(SAME) if recorded == real else wrong)._replace(where=level))
    return verdicts


def check(kept: Kept, compiler: Compiler, test: Test) -> List[Verdict]:
    """What comes of a test at each of its levels."""
    if not test.levels():
        return [Verdict(LEFT_OUT, "for other levels")]
    if not test.is_run:
        return check_compiled(compiler, test)
    verdicts, options = [], test.options
    for level in test.levels():
        program = Program(compiler, test.is_cpp, ["-g", "-w", level, *test.flags(), test.source])
        with folder_for_a_test() as folder:
            language = ["C++"] if test.is_cpp and test.source.endswith(".c") else []
            question = [version_of(compiler), *program.argv, options, *language]
            real = kept.ask(question, lambda: program.build_and_execute("real", folder, ASAN_OPTIONS=options))
            recorded = program._replace(argv=[*([FINDS_RETURNS] if RETURNS in options else []), *program.argv])
            record = functools.partial(recorded.build_and_execute, "recorded", folder, ASAN_OPTIONS=options)
            verdicts += compare_all(real, record, level)
    return verdicts


def jobs(kept: Kept, compilers: Sequence[Compiler]) -> Iterator[Job]:
    for compiler in compilers:
        if compiler.name in ("gcc", CROSS):
            yield from (Job("gcc", it.name, functools.partial(check, kept, compiler, it)) for it in tests())
