"""Tests of pointers that the system refuses: each function of calls.def, with each of its pointers in turn a bad one,
answers as it does alone, or dies as it does alone."""

import re
from typing import Dict, List, NamedTuple

from hub import run_under
from calls import Row, names_there, split, table
from support import TESTS, Compiler, Suite, expect, reports, run, write

# Which pointers refused.c has. The first stands for all where a call dies alone too. The others lie in the recorder's
# maps: the system is given nothing there that it reads as a text.
POINTERS = range(6)
IN_MAPS = range(6, 8)
# Of parameters that are no pointers, by their names; and 0.
NUMBERS = {"folder": "folder", "file": "file", "size": "16", "count": "2", "length": "16", "room": "64", "most": "16",
           "pieces": "2"}
OF_FUNCTIONS = {("prctl", "option"): "15", ("name_to_handle_at", "flags"): "0"}
# Calls that are not tried: a call waits, changes the machine or the limits, or needs more than memory; the recorder has
# a stack for handlers.
LEFT_OUT = {"sigwait", "sigwaitinfo", "getpass", "clock_settime", "iconv", "sigaltstack", "prlimit", "prlimit64"}
NO_MEMORY = re.compile(r"\b(FILE|DIR|regex_t|random_data|drand48_data) \*")
# These read what nobody needs, as a set of letters that are looked for in an empty text.
EAGER = ("strstr", "strpbrk", "strtok", "strtok_r", "__strtok_r", "strsep", "strptime", "wcsstr", "wcspbrk",
         "wcstok")


# What it answers if it has failed: below zero, null, or an error itself.
FAILED = re.compile(r"(-1 |null |14 ).*")


class Case(NamedTuple):
    """A call of a function with one bad pointer."""

    name: str
    parameter: str
    words: str
    result: str
    is_text: bool  # that is given to the system

    def text(self, number: int) -> str:
        return f"static long case_{number}(void *bad) {{ return call_{self.name}({self.words}); }}"


def is_pointer(parameter: str) -> bool:
    return "*" in parameter or "[" in parameter


def name_of(parameter: str) -> str:
    return re.findall(r"\w+", parameter.partition("[")[0])[-1]


def argument(row: Row, name: str, parameter: str, place: int) -> str:
    if "(" in parameter:
        return "(long)0"
    if "FILE *" in parameter:
        return "fresh_stream()"
    if is_pointer(parameter):
        return f"goods[{place}]"
    word = OF_FUNCTIONS.get((name, name_of(parameter))) or NUMBERS.get(name_of(parameter)) or "0"
    return "sockets[0]" if word == "file" and "socklen_t" in row.parameters() else word


def cases_of(row: Row, name: str) -> List[Case]:
    parameters = [it for it in split(row.parameters()[1:-1]) if it != "void"]
    if re.search(r"\b(double|float)\b", row.parameters() + row.result()) or name in LEFT_OUT or row.has_format():
        return []
    found = []
    for bad, parameter in enumerate(parameters):
        if is_pointer(parameter) and "(" not in parameter and not NO_MEMORY.search(parameter):
            words = [argument(row, name, it, place) for place, it in enumerate(parameters)]
            words[bad] = "bad"
            is_text = f"GIVES_STRING({name_of(parameter)})" in "".join(row.rest)
            found.append(Case(name, name_of(parameter), ", ".join(words), row.result(), is_text))
    return found


def source_of(cases: List[Case]) -> str:
    lines = []
    for name in sorted({case.name for case in cases}):
        lines.append(f'extern function real_{name} __asm__("{name}");')
        lines.append(f"static function *volatile call_{name} = real_{name};")
    lines += [case.text(number) for number, case in enumerate(cases)]
    lines.append("static const struct { long (*call)(void *); int is_pointer, is_int; } cases[] = {")
    lines += [f"{{case_{number}, {int('*' in case.result)}, {int(case.result == 'int')}}},"
              for number, case in enumerate(cases)]
    return "\n".join([*lines, "};"]) + "\n"


def answers(folder: str, program: str, wanted: List[str], how: str, **settings: str) -> Dict[str, str]:
    """What each of these calls answers, by its numbers."""
    ran = run([program, how], folder, "".join(f"{it}\n" for it in wanted).encode(), **settings)
    lines = [line.split(" ", 2) for line in ran.stdout.decode().splitlines()]
    found = {f"{number} {which}": said for number, which, said in lines}
    said = f"{program} {how}, after {lines[-1:]}: {ran.stderr[-500:]!r}"
    expect((ran.returncode, len(found)), (0, len(wanted)), said)
    return found


def check_refused(suite: Suite, folder: str, compiler: Compiler) -> None:
    """Those that die alone die so; those that fail alone fail so, one after the other in one process, and nothing is
    reported of them."""
    rows = {name: row for row in table() for name in row.names}
    cases = [case for name in names_there() if name in rows for case in cases_of(rows[name], name)]
    write(folder, cases_h=source_of(cases))
    flags = ["-w", "-fno-builtin", "-iquote", folder, "-lm"]
    compiler.c(folder, [f"{TESTS}/refused.c"], "alone", *flags, native=True)
    compiler.c(folder, [f"{TESTS}/refused.c"], "recorded", *flags)
    alone = answers(folder, "./alone", [f"{number} 0" for number in range(len(cases))], "child")
    died = [it for it in alone if alone[it].startswith("signal")]
    others = [f"{it.split()[0]} {which}" for it in alone if it not in died
              for which in (*POINTERS[1:], *(IN_MAPS if cases[int(it.split()[0])].is_text else ()))]
    alone.update(answers(folder, "./alone", others, "child"))
    failed = [it for it in alone if FAILED.match(alone[it]) and cases[int(it.split()[0])].name not in EAGER]
    found = answers(folder, "./recorded", failed, "here", ASANCOL_TRACE=f"{folder}/t.trace", ASANCOL_WHERE="1")
    found.update(answers(folder, "./recorded", died, "child"))
    wrong = [f"{cases[int(it.split()[0])].name}({cases[int(it.split()[0])].words}) {it}: {found[it]}, alone {alone[it]}"
             for it in found if found[it] != alone[it]]
    expect(wrong, [], "calls that answer otherwise than alone")
    expect(len(failed) > 500 and len(died) > 100, True, f"{len(failed)} failed, {len(died)} died")
    expect(reports(suite.asancol, f"{folder}/t.trace")[1], [], "reports")


def check_execs(_suite: Suite, folder: str, compiler: Compiler) -> None:
    """Under a hub the recorder looks at what happens to the process."""
    compiler.c(folder, [f"{TESTS}/execs.c"], "alone", "-w", native=True)
    compiler.c(folder, [f"{TESTS}/execs.c"], "recorded", "-w")
    peers, said = run_under(folder, ["./recorded"])
    expect((len(peers), said), (1, run(["./alone"], folder).stderr), "what they answer")


def tests(suite: Suite, compiler: Compiler) -> None:
    suite.test(f"{compiler} refused executions", check_execs, compiler)
    suite.test(f"{compiler} refused pointers", check_refused, compiler)
