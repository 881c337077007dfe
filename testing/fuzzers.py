"""The parsers of the recorder, of asancol-cc and of asancol-run under the compilers' own sanitizers.

Each target is built by GCC and by Clang with AddressSanitizer and UndefinedBehaviorSanitizer, and is run on its seeds
and on changes of them, the same each time. Then libFuzzer runs it for some seconds, if Clang has it; what it finds is
left in the current folder. The stream of the recorder with what stands beside it, its heap, and what it notes of stacks
and threads are built with ThreadSanitizer, and four threads share each of them; asancol-run has one thread.
"""

import os
import subprocess
import tempfile
from typing import List, NamedTuple, Sequence

from .expectations import Failure, LeftOut
from .programs import TOP, call, compilers_there
from .suite import Later, Suite

RECORDER, RUN, COMMON = f"{TOP}/recorder", f"{TOP}/run", f"{TOP}/common"
WRAPPER = f"{RECORDER}/wrapper"
OURS, THEIRS = f"{RECORDER}/tests/fuzz", f"{RUN}/tests/fuzz"

WARNINGS = ["-Wall", "-Wextra", "-Wconversion", "-Wno-unused-parameter"]
SANITIZERS = "address,undefined"
# How often a seed is changed, how long an input gets, and how much memory may be taken, in MB.
CHANGES, LONGEST, MAX_MEMORY = 2000, 4096, 2048
# No run takes longer than this and what libFuzzer was given, in seconds.
PATIENCE = 120


class Target(NamedTuple):
    name: str
    sources: Sequence[str]
    seeds: Sequence[bytes]
    words: Sequence[bytes] = ()  # that libFuzzer puts into inputs
    flags: Sequence[str] = ()
    sanitizers: str = SANITIZERS
    races: Sequence[str] = ("thread",)  # the sanitizers under which threads run


ENVIRONMENT = [
    b"ASANCOL_TRACE=a/%%b.%p.trace\0ASANCOL_LOG=/tmp/%p\0ASANCOL_LIMIT=100\0ASANCOL_LIMITS=5\0ASANCOL_WHERE=1",
    b"ASANCOL_HUB=/run/x/hub\0ASANCOL_HALT=2\0ASANCOL_STOP=1\0ASANCOL_PATIENCE=0",
    b"ASAN_OPTIONS=halt_on_error=1:quarantine_size_mb=64,x='a b':y\0LSAN_OPTIONS=detect_leaks=no\0ASANCOL_LEAKS=2",
]
FORMATS = [b"\0%d %-10s %5.2f %ls %lc %n %%", b"\0%*.*s|%Lf|%hhd|%#x|%m", b"\5%d %s %[a-z] %10c %ms %n",
           b"\7%*d %ls %l[^]] %as"]
COMPILES = [b"-c\0a.c\0-o\0a.o", b"-Wl,-Bstatic,x.o\0-lm\0-Lfoo\0@response\0a.c '-o' \"b c\" \\x -x c++",
            b"-fsanitize=address\0-fno-sanitize=all\0-x\0assembler\0-\0@response\0@response @response"]
RUNS = [b"--json\0a.%p.%q{HOME}.%%\0--timeout=1.5\0--\0true", b"-qv\0--exitcode\x00255\0--memory=1048576\0x",
        b"--color\0never\0--live\0--suppressions=a\0make"]
SIDE = (bytes(18) + b"\1\0\0\0\x0b\0\0\0" + bytes(16) + b"\1\0\0\0\0\0\0\0" + bytes(16)).ljust(162, b"a")
REPORT = b"p0 #2 store 4 at 000000001004 bad 000000001005 heap-buffer-overflow shadow 05\n"
ENDS = [b"closed events 2 offset 36 reports 1", b"no-memory checked 5 reports 1", b"not-started",
        b"malformed code events 1 offset 20 reports 0", b"no-close events 1 offset 20 reports 0"]

TARGETS = [
    Target("recorder: settings",
           [f"{OURS}/settings.c", *(f"{RECORDER}/environment/{it}.c" for it in ("settings", "asan_options"))],
           ENVIRONMENT,
           [b"ASANCOL_", b"TRACE=", b"QUARANTINE=", b"SOCKET=", b"HUB=", b"%p", b"%%"]),
    Target("recorder: formats", [f"{OURS}/formats.c"], FORMATS, [b"%", b"*", b"hh", b"ll", b"%[", b"^]", b"%1$d"]),
    Target("recorder: frames", [f"{OURS}/frames.c", f"{RECORDER}/stacks/frames.c"],
           [b"2 32 16 4 name 64 8 9 other:123", b"18446744073709551616 0 99999999999999999999 5 a"]),
    Target("asancol-cc: arguments",
           [f"{OURS}/arguments.c",
            *(f"{WRAPPER}/{it}.c" for it in ("arguments", "inputs", "left_out", "linked", "names", "response", "say",
                                                "view"))],
           COMPILES, [b"-Xlinker", b"-fsanitize=", b"@response", b"-Wl,", b"-x"]),
    Target("asancol-cc: objects",
           [f"{OURS}/objects.c",
            *(f"{WRAPPER}/{it}.c" for it in ("left_out", "linked", "names", "own_data", "say"))], [],
           [b"\x7fELF\2\1\1\0", b"!<arch>\n", b"BC\xc0\xde", b"-fsanitize=kernel-address", b".gnu.lto_"]),
    Target("asancol-run: hub",
           [f"{THEIRS}/hub.c",
            *(f"{RUN}/{it}.c" for it in ("side", "modules", "processes", "end_line", "verdict", "outcome", "texts",
                                         "deaths", "json", "say", "names", "printable")),
            f"{COMMON}/path.c"],
           [SIDE + REPORT + b"p0 end " + it + b"\n" for it in ENDS],
           [b"p0 end ", b"events ", b" reports ", b" checked "]),
    Target("asancol-run: arguments", [f"{THEIRS}/arguments.c", f"{THEIRS}/ends.c", f"{RUN}/options.c", f"{RUN}/names.c",
                                   f"{RUN}/preload.c", f"{RUN}/asan.c", f"{RUN}/source_url.c", f"{COMMON}/path.c",
                                   f"{COMMON}/string_list.c"],
           RUNS, [b"--wait=", b"--at-least=", b"%q{", b"}", b"--quarantine=", b"--html=", b"--source-url=x:{file}"],
           ["-Dexit=fuzz_exit", "-include", f"{THEIRS}/ends.h", '-DRELEASE="1"']),
]

# The parts that have large tables get these from a test.
TABLES = ("-D_GNU_SOURCE=", "-include", f"{OURS}/tables.h")

# Programs that draw their own inputs.
DRAWN = [
    Target("walks over stacks",
           [f"{OURS}/unwinding.c", *(f"{RECORDER}/stacks/{it}.c" for it in ("unwinding", "walks"))], [],
           flags=TABLES),
    Target("walks through functions",
           [f"{OURS}/walks.c", f"{RECORDER}/base/memory.c",
            *(f"{RECORDER}/stacks/{it}.c" for it in ("unwinding", "walks", "cfi"))], [],
           flags=["-pthread", *TABLES], sanitizers="undefined"),  # it reads the redzones of frames
]

# The parts of the stream.
STREAM = ("state", "regions", "places", "saying", "group", "watched", "opening", "growing", "keeping", "sending",
          "switching", "holes", "held", "ending", "output", "windows", "segments")

# Threads wait for others as long as it takes: on a busy machine one may sleep in the middle of a record for so long
# that another one puts a record in its place, and both write there (holes.c). recorder/tests/exploring.py has the
# orders of that.
PATIENT = "-DIS_PATIENT=1"

# The parts of the allocator.
HEAP = ("arena", "entering", "origin", "spare", "shards", "retiring", "reusing", "poisoning", "quarantine", "freeing",
        "program_hooks", "allocating", "numbers", "nearest", "snapshot")

# What threads share.
SHARED = [
    Target("heap",
           [f"{OURS}/heap.c", *(f"{RECORDER}/heap/{it}.c" for it in HEAP)], [],
           flags=["-include", f"{OURS}/heap.h", *TABLES], races=("thread", SANITIZERS)),
    Target("stacks", [f"{OURS}/stacks.c",
            *(f"{RECORDER}/{it}.c" for it in ("process/threads", "process/waiting", "stacks/walks"))], [],
           flags=["-DIS_STATIC", *TABLES]),
    Target("thread notes", [f"{OURS}/thread_notes.c", f"{RECORDER}/stacks/thread_notes.c"], [], flags=TABLES),
    Target("stream, and what stands beside it",
           [f"{OURS}/races.c",
            *(f"{RECORDER}/{it}.c" for it in ("base/descriptors", "base/errors", "base/memory", "environment/asking",
                                              "environment/dormant", "environment/hub_folder",
                                              "environment/hub_names", "shadow/globals", "shadow/shadow",
                                              "stacks/stacks", "stacks/thread_notes", "stacks/walks")),
            *(f"{RECORDER}/stream/{it}.c" for it in (
                *STREAM, "fault_list", "faults", "findings", "lists", "maps", "modules", "record", "side",
                "suspending", "test_name", "thread_list"))], [],
           flags=[PATIENT, "-include", f"{OURS}/heap.h", *TABLES]),
]


def run(argv: Sequence[str], folder: str, seconds: float = PATIENCE) -> str:
    settings = {**os.environ, "ASAN_OPTIONS": "detect_leaks=0", "UBSAN_OPTIONS": "print_stacktrace=1"}
    ran = call(argv, cwd=folder, env=settings, stdin=subprocess.DEVNULL, stdout=subprocess.PIPE,
               stderr=subprocess.STDOUT, timeout=seconds, check=False)
    text = ran.stdout.decode(errors="replace")
    if ran.returncode != 0:
        raise Failure(f"{os.path.basename(argv[0])}: status {ran.returncode}: {text[-3000:]}")
    return text


def build(compiler: str, target: Target, sanitizers: str, more: Sequence[str], folder: str) -> str:
    program = f"{folder}/{compiler}-{sanitizers.replace(',', '-')}"
    argv = [compiler, "-std=gnu11", "-g", "-O1", "-fno-omit-frame-pointer", *WARNINGS, *target.flags]
    argv += ["-iquote", RECORDER, "-iquote", RUN, "-iquote", TOP]
    argv += [f"-fsanitize={sanitizers}", "-fno-sanitize-recover=all", *target.sources, *more, "-o", program]
    said = run(argv, folder, 5 * PATIENCE)
    if said:
        raise Failure(said)
    return program


def write_seeds(target: Target, folder: str) -> List[str]:
    """Writes the seeds of a target, each into a file. Those of objects are what the compiler has made."""
    os.mkdir(f"{folder}/seeds")
    seeds = list(target.seeds)
    for number, data in enumerate(seeds):
        with open(f"{folder}/seeds/{number}", "wb") as file:
            file.write(data)
    if not seeds:
        source = ["-x", "c", "-include", "stdlib.h", os.devnull, "-nostdlib", "-frecord-gcc-switches"]
        run(["cc", "-c", *source, "-o", "seeds/object"], folder)
        run(["cc", "-shared", "-Wl,-z,norelro", *source, "-o", "seeds/library"], folder)
    return sorted(f"{folder}/seeds/{name}" for name in os.listdir(f"{folder}/seeds"))


def check_changes(suite: Suite, folder: str, compiler: str, target: Target) -> None:
    """The seeds, and changes of them."""
    program = build(compiler, target, SANITIZERS, [f"{TOP}/tests/fuzz_main.c"], folder)
    run([program, str(CHANGES), *write_seeds(target, folder)], folder)


def check_fuzzer(suite: Suite, folder: str, _libfuzzer: str, target: Target, seconds: float) -> None:
    """What libFuzzer draws, for this many seconds. It leaves an input that fails in the current folder."""
    program = build("clang", target, f"fuzzer,{SANITIZERS}", [], folder)
    write_seeds(target, folder)
    with open(f"{folder}/words", "w", encoding="utf-8") as file:
        file.write("# of this target\nall=\"\\x00\"\n")
        for word in target.words:
            file.write('"' + "".join(f"\\x{byte:02x}" for byte in word) + '"\n')
    front = f"-artifact_prefix={os.getcwd()}/{target.name.replace(': ', '-')}-"
    run([program, f"-max_total_time={seconds:.0f}", f"-max_len={LONGEST}", f"-rss_limit_mb={MAX_MEMORY}", "-timeout=10",
         "-dict=words", front, "seeds"], folder, seconds + PATIENCE)


def check_threads(suite: Suite, folder: str, compiler: str) -> None:
    """Four threads that write into a stream and into its segments, under ThreadSanitizer and under the others."""
    sources = [f"{OURS}/threads.c"]
    sources += [f"{RECORDER}/environment/{part}.c" for part in ("asking", "dormant", "hub_names")]
    sources += [f"{RECORDER}/base/{part}.c" for part in ("descriptors", "errors")]
    sources += [f"{RECORDER}/stream/{part}.c" for part in STREAM]
    for sanitizers in ("thread", SANITIZERS):
        target = Target("threads", sources, [], flags=[PATIENT, *TABLES])
        run([build(compiler, target, sanitizers, ["-pthread"], folder)], folder)


def check_races(suite: Suite, folder: str, compiler: str, target: Target) -> None:
    """Threads that share something, under ThreadSanitizer, and if they can be under the others."""
    for sanitizers in target.races:
        run([build(compiler, target, sanitizers, ["-pthread"], folder)], folder)


def check_drawn(suite: Suite, folder: str, compiler: str, target: Target) -> None:
    """What a program draws by itself."""
    run([build(compiler, target, target.sanitizers, [], folder)], folder)


def need_libfuzzer() -> None:
    with tempfile.TemporaryDirectory(prefix="asancol-fuzzers-") as folder:
        try:
            target = Target("", [f"{OURS}/frames.c", f"{RECORDER}/stacks/frames.c"], [])
            build("clang", target, f"fuzzer,{SANITIZERS}", [], folder)
        except (Failure, OSError):
            raise LeftOut("libFuzzer is not there") from None


def add_tests(suite: Suite, seconds: float, programs: Sequence[str], front: str = "") -> None:
    """Adds the tests of some programs to a suite."""
    libfuzzer = Later("", need_libfuzzer)
    for target in TARGETS:
        if target.name.split(":")[0] in programs:
            for compiler in compilers_there():
                suite.test(f"{front}{target.name}: {compiler}", check_changes, compiler, target)
            suite.test(f"{front}{target.name}: fuzzer", check_fuzzer, libfuzzer, target, seconds)
    if "recorder" in programs:
        for compiler in compilers_there():
            suite.test(f"{front}recorder: races in the stream alone: {compiler}", check_threads, compiler)
            for target in DRAWN:
                suite.test(f"{front}recorder: {target.name}: {compiler}", check_drawn, compiler, target)
            for target in SHARED:
                suite.test(f"{front}recorder: races in the {target.name}: {compiler}", check_races, compiler, target)
