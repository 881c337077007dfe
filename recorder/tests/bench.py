#!/usr/bin/env python3
"""Measures recorded programs beside the same ones native and under AddressSanitizer.

usage: recorder/tests/bench.py [--rounds N] ASANCOL [NAME..]

For each program and compiler: the least processor time of N runs (5), user and system, of

    native      the program alone
    sanitizer   AddressSanitizer, which does not look for leaks
    framed      the same, built with frame pointers: without them it sees of most stacks a frame or two
    off         the program that could record and does not
    lean        the one that records to a file, as under asancol-run
    full        and as under asancol-run --full
    run         asancol-run with the program and its checker
    run-full    and with --full

Then come all after AddressSanitizer's as parts of that, and the greatest memory of a process of five of
them, in MB; and for a program that frees much what it has at its end. Runs are interleaved. Every build
has its branches aligned alike: without that, the time of a short loop is luck on some processors.

Small programs, each of which does one thing, and two real ones: bzip2 compresses and decompresses 2 MB
of words, and Lua's interpreter runs a script. Their sources come from Debian as those of real.py do,
and if they are not to be had these two are left out, by name.

All of it takes about twenty minutes on a machine with nothing else to do, half of them for the two real
programs, each of which is built eight times.
"""

import argparse
import os
import random
import sys
import tempfile
from typing import Dict, List, NamedTuple, Optional, Sequence, Tuple

sys.path.insert(0, f"{os.path.dirname(os.path.realpath(__file__))}/../..")  # where `testing` is

import real
from support import CC, CXX, TESTS, TOP, Compiler, Failure, build, compilers, environment
from testing import measuring
from testing.measuring import Used

ALIGNED = {
    "gcc": "-Wa,-mbranches-within-32B-boundaries",
    "clang": "-mbranches-within-32B-boundaries",
}


class Program(NamedTuple):
    """A program of one source, or one of those of real.py. `runs` are its command lines, one after the other."""

    name: str
    source: str
    runs: Tuple[Sequence[str], ...]
    is_cpp: bool = False
    is_real: bool = False  # `source` is then where its build leaves the program
    finds_returns: bool = False  # its frames are apart from the stack
    has_leaks: bool = False  # leaks are looked for at its end
    has_library: bool = False  # made of the same source without asancol-cc, and without a sanitizer
    quarantine_mb: int = 256
    says_rest: bool = False  # prints how many MB it has at its end
    recovers: bool = False  # goes on at each fault, which AddressSanitizer reports once for each place
    flags: Sequence[str] = ()  # Clang's alone


PROGRAMS = [
    Program("array", "speed.c", (["array", "100000000"],)),
    Program("tree", "speed.c", (["tree", "300000"],)),
    Program("sort", "speed.c", (["sort", "2000000"],)),
    Program("blocks", "speed.c", (["blocks", "3000000"],)),
    Program("40-kb", "speed.c", (["40-kb", "40000"],)),
    Program("100-kb", "speed.c", (["100-kb", "40000"],)),
    Program("40-kb-1", "speed.c", (["40-kb", "40000"],), quarantine_mb=1),
    Program("100-kb-1", "speed.c", (["100-kb", "40000"],), quarantine_mb=1),
    Program("sawtooth", "speed.c", (["sawtooth", "5"],), says_rest=True),
    Program("sawtooth-1", "speed.c", (["sawtooth", "5"],), quarantine_mb=1, says_rest=True),
    Program("frames", "speed.c", (["frames", "30000000"],)),
    Program("returns", "speed.c", (["frames", "30000000"],), finds_returns=True),
    Program("calls", "speed.c", (["calls", "50000000"],)),
    Program("copies", "speed.c", (["copies", "20000000"],)),
    Program("strings", "speed.c", (["strings", "5000000"],)),
    Program("faults", "speed.c", (["faults", "100000"],), recovers=True),
    Program("same-fault", "speed.c", (["same-fault", "100000"],), recovers=True),
    Program("leaks", "speed.c", (["live", "1000000"],), has_leaks=True),
    Program("live", "speed.c", (["live", "1000000"],)),
    Program("text", "speed.c", (["text", "400000"],)),
    Program("matrix", "speed.c", (["matrix", "20"],)),
    Program("hash", "speed.c", (["hash", "8000000"],)),
    Program("starts", "speed.c", (["starts", "200"],)),
    Program("starts-leaks", "speed.c", (["starts", "200"],), has_leaks=True),
    Program("forks", "speed.c", (["forks", "300"],)),
    Program("forks-leaks", "speed.c", (["forks", "300"],), has_leaks=True),
    Program("execs", "speed.c", (["execs", "100"],)),
    Program("fuzzer", "speed_fuzzed.c", (["-runs=300000", "-seed=1"],), flags=("-fsanitize=fuzzer",)),
    Program("plain", "speed_plain.c", (["5000000"],), has_library=True),
    Program("containers", "containers.cpp", (["300000"],), is_cpp=True),
    Program("bzip2", "bzip2", (["-kf", "words"], ["-kdf", "words.bz2"]), is_real=True),
    Program("lua5.4", "src/lua", ([f"{TESTS}/real/work.lua", "40000"],), is_real=True),
]

# Each way to run a program: its build, and what its environment has besides.
WAYS = ("native", "sanitizer", "framed", "off", "own", "lean", "full", "run", "run-full")
RECORDED = WAYS[3:]
SANITIZED = {"sanitizer": ["-fsanitize=address"], "framed": ["-fsanitize=address", "-fno-omit-frame-pointer"]}
RUN = f"{TOP}/run/asancol-run"
RUNS = {"run": (), "run-full": ("--full",)}


# Whose memory is said.
MEASURED = (*SANITIZED, "off", "lean", "full")


class Cost(NamedTuple):
    seconds: float
    megabytes: float
    rest_megabytes: float  # at the end


def build_small(compiler: Compiler, program: Program, flags: Sequence[str], is_recorded: bool, path: str) -> None:
    command = compiler.cxx if program.is_cpp else compiler.name
    argv = [CXX if program.is_cpp else CC] if is_recorded else [command]
    argv += [*flags, f"{TESTS}/{program.source}", "-o", path]
    if program.has_library:
        library = f"{path}.so"
        plain = ["-O2", ALIGNED[compiler.name], "-fno-builtin", "-fPIC", "-shared", "-DLIBRARY"]
        build([command, *plain, f"{TESTS}/{program.source}", "-o", library], ".")
        argv.append(library)
    build(argv, ".", **{"ASANCOL_CXX" if program.is_cpp else "ASANCOL_CC": command})


def build_real(compiler: Compiler, program: Program, flags: Sequence[str], is_recorded: bool, folder: str) -> None:
    settings = real.flags_for(compiler, " ".join(flags), is_recorded)
    settings["ASAN_OPTIONS"] = "detect_leaks=0"  # for what runs while it is built
    os.mkdir(folder)
    real.build_in(next(it for it in real.PROGRAMS if it.name == program.name), folder, settings)


def make(compiler: Compiler, program: Program, way: str, folder: str) -> str:
    """Builds a program and returns its path. The ways of a recorded one share a build."""
    is_recorded = way in RECORDED
    flags = ["-O2", ALIGNED[compiler.name], *SANITIZED.get(way, []), *program.flags]
    if program.finds_returns and is_recorded:
        flags.append("-fsanitize-address-use-after-return=runtime")
    if program.recovers and way in SANITIZED:
        flags.append("-fsanitize-recover=address")
    has_own_build = program.is_real or program.finds_returns or program.recovers
    name = program.name if has_own_build else program.source
    base = f"{folder}/{name}.{compiler}.{'recorded' if is_recorded else way}"
    path = f"{base}/src/{program.source}" if program.is_real else base
    if not os.path.exists(path):
        if program.is_real:
            build_real(compiler, program, flags, is_recorded, base)
        else:
            build_small(compiler, program, flags, is_recorded, path)
    return path


def settings_for(path: str, program: Program, way: str, folder: str, asancol: str) -> Dict[str, str]:
    """How a program is run: with the libraries that were built beside it."""
    asked = {"detect_leaks": program.has_leaks, "detect_stack_use_after_return": program.finds_returns,
             "quarantine_size_mb": program.quarantine_mb}
    options = ":".join(f"{name}={int(value)}" for name, value in asked.items())
    if program.recovers and way in SANITIZED:
        options += f":halt_on_error=0:log_path={folder}/run.log"
    settings = {"ASAN_OPTIONS": f"{options}:exitcode=0", "LD_LIBRARY_PATH": os.path.dirname(path), "ASANCOL": asancol}
    if way in ("full", "lean"):
        settings.update(ASANCOL_TRACE=f"{folder}/%p.trace", ASANCOL_WHERE="1", ASANCOL_FULL=str(int(way == "full")),
                        ASANCOL_LEAKS=str(int(program.has_leaks)), ASANCOL_QUARANTINE=str(program.quarantine_mb << 20))
    if way == "own":
        settings["ASANCOL_RUN"] = ""
    return settings


def front_of(program: Program, way: str, folder: str) -> Sequence[str]:
    """What stands before the program's command line."""
    if way not in RUNS:
        return ()
    words = [f"--leaks={'yes' if program.has_leaks else 'no'}", "--quarantine", str(program.quarantine_mb << 20)]
    return (RUN, *RUNS[way], *words, "--exitcode", "0", "--log-file", f"{folder}/run.log", "--")


def measure_run(argv: Sequence[str], settings: Dict[str, str], folder: str) -> Tuple[Used, str]:
    """Runs a program once, and returns what it took and what it printed."""
    with tempfile.TemporaryFile("w+") as said:
        used = measuring.measure(argv, stdout=said, cwd=folder, env=environment(**settings))
        said.seek(0)
        text = said.read()
    for name in os.listdir(folder):
        if name.endswith((".trace", ".where")) or name.startswith("run.log"):
            os.unlink(f"{folder}/{name}")
    if used.status:
        raise Failure(f"{' '.join(argv)}: status {used.status}")
    return used, text


def measure(path: str, program: Program, way: str, folder: str, asancol: str) -> Cost:
    settings, front = settings_for(path, program, way, folder, asancol), front_of(program, way, folder)
    runs = [measure_run([*front, path, *argv], settings, folder) for argv in program.runs]
    rest = float(runs[-1][1]) if program.says_rest else 0
    return Cost(sum(used.processor for used, _ in runs), max(used.memory for used, _ in runs) / (1 << 20), rest)


def least(costs: Sequence[Cost]) -> Cost:
    return Cost(*(min(values) for values in zip(*costs)))


def row(compiler: Compiler, program: Program, rounds: int, folder: str, asancol: str) -> str:
    paths = {way: make(compiler, program, way, folder) for way in WAYS}
    costs: Dict[str, List[Cost]] = {way: [] for way in WAYS}
    for _ in range(rounds):
        for way in WAYS:
            costs[way].append(measure(paths[way], program, way, folder, asancol))
    best = {way: least(costs[way]) for way in WAYS}
    base = best["sanitizer"]
    seconds = "".join(f"{best[way].seconds:11.3f}" for way in WAYS)
    parts = "".join(f"{best[way].seconds / base.seconds:10.2f}" for way in WAYS[2:])
    memory = "".join(f"{best[way].megabytes:14.0f}" for way in MEASURED)
    rest = "  then" + "".join(f"{best[way].rest_megabytes:5.0f}" for way in WAYS[1:]) if program.says_rest else ""
    return f"{program.name:<12}{compiler!s:<7}{seconds}{parts}{memory}{rest}"


def write_words(folder: str) -> None:
    """2 MB of text, the same each time: some words are common and most are rare."""
    numbers = random.Random(1)
    words = ["".join(numbers.choices("etaoinshrdlu", k=numbers.randint(2, 9))) for _ in range(5000)]
    text = " ".join(words[int(5000 * numbers.random() ** 4)] for _ in range(350000))
    with open(f"{folder}/words", "w", encoding="ascii") as file:
        file.write(text)


def chosen(names: Sequence[str]) -> List[Program]:
    """The programs that were asked for and whose sources are there."""
    programs = []
    for program in PROGRAMS:
        if names and program.name not in names:
            continue
        try:
            if program.is_real:
                real.fetch([it for it in real.PROGRAMS if it.name == program.name])
            programs.append(program)
        except (Failure, OSError) as error:
            print(f"left out: {program.name}, its sources are not to be had: {error}", flush=True)
    return programs


def main(argv: Optional[List[str]] = None) -> int:
    parser = argparse.ArgumentParser(description="measures recorded programs")
    parser.add_argument("--rounds", type=int, default=5)
    parser.add_argument("asancol", metavar="ASANCOL")
    parser.add_argument("names", nargs="*")
    options = parser.parse_args(argv)
    asancol = os.path.abspath(options.asancol)
    programs, found = chosen(options.names), compilers()
    heads = "".join(f"{way:>11}" for way in WAYS) + "".join(f"{way + '/':>10}" for way in WAYS[2:])
    heads += "".join(f"{'MB ' + way:>14}" for way in MEASURED)
    print(f"{'program':<12}{'by':<7}{heads}", flush=True)
    with tempfile.TemporaryDirectory(prefix="asancol-bench-") as folder:
        write_words(folder)
        for program in programs:
            for compiler in found:
                if program.flags and compiler.name != "clang":
                    continue
                try:
                    print(row(compiler, program, options.rounds, folder, asancol), flush=True)
                except Failure as error:
                    sys.exit(str(error))
    return 0


if __name__ == "__main__":
    sys.exit(main())
