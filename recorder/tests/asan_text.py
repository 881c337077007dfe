"""The text of --format=asan, of --log-path and of a process that halts: beside that of AddressSanitizer's runtime, and
by the expressions of tools that read it."""

import glob
import os
import re

from support import TESTS, expect, leave_out, run
from testing import expect_in
from testing.programs import TOP

RUN = f"{TOP}/run/asancol-run"
SOURCE = f"{TESTS}/asan_text.cpp"
ACCESSES = ("after", "before", "freed", "array", "global", "copy", "scope", "thread")
FREES = ("twice", "inside")
CRASHES = ("null", "division")
# What does not end a process.
OTHERS = ("lost", "overlap", "family", "type")
ALL = (*ACCESSES, *FREES, *CRASHES, *OTHERS)

FRAME = re.compile(r"    #\d+ 0x[0-9a-f]+ in (.+?)(?: (\S*/\S*?):(\d+)(?::\d+)?)?(?: \(.*\))?(?: \(BuildId: \w+\))?")
# Lines that say no more than others, or of which the older runtimes have another form.
LEFT_OUT = re.compile(r"HINT: |      \(longjmp|==N==HINT|(?:=>|  )0x:|==N==ABORTING|asancol: |Aborted|.*dumped\)|"
                      r"    #\d+ 0x[0-9a-f]+ +\(")


def normal_frame(found):
    """A frame by its function, and its line if that is the test's. The runtime has its own prefix for functions."""
    name = re.sub(r"^(?:__interceptor_|__interceptor_trampoline_|__asan_)", "", found[1])
    is_own = found[2] is not None and os.path.basename(found[2]) == os.path.basename(SOURCE)
    return f"    {re.sub(r'[(].*', '', name)} {found[3] if is_own else ''}".rstrip()


def normal(text):
    """A report without what differs from run to run, in the words of newer releases. What has called `main`, or a
    thread, is left out."""
    lines, is_below = [], False
    text = text.replace("to the right of", "after").replace("to the left of", "before")
    for line in text.splitlines():
        frame = FRAME.fullmatch(line)
        line = normal_frame(frame) if frame else line
        is_below = frame is not None and (is_below or re.search(r" __libc_start|  *start_thread| _start|clone", line))
        line = re.sub(r"0x[0-9a-f]+", "0x", re.sub(r"==\d+==", "==N==", line))
        line = re.sub(r"defined in '(?:\S*/)?(\S+?:\d+)(?::\d+)?'", r"defined in '\1'", line)
        line = re.sub(r"(SUMMARY: AddressSanitizer: [a-zA-Z-]+) .*", r"\1", line)
        if not is_below and not LEFT_OUT.match(line):
            lines.append(line.rstrip())
    # Another global that is near; and what the second range of a call lies beside.
    lines = [it for it in lines if " global variable 'zero'" not in it and " global variable 'kept'" not in it]
    others = [at for at, it in enumerate(lines) if it.startswith("0x is located ")][1:]
    for at in others:
        end = next(here for here in range(at, len(lines)) if lines[here].startswith("SUMMARY"))
        del lines[at:end]
    while lines and not lines[0].startswith(("===", "AddressSanitizer:DEADLY")):
        lines.pop(0)
    return lines


def said_at_halt(text):
    """What the process itself says of a report, without frames: nothing of variables, nor of where threads began."""
    lines = [it for it in normal(text) if it and not it.startswith(("    ", "  ", "Shadow "))]
    return [it for it in lines if not re.match(r"Address 0x is|0x is .* global|Thread T", it)]


def built(suite, compiler):
    make = compiler.cpp
    return [suite.built(make, [SOURCE], f"asan-text-{compiler}-{kind}", "-w", "-O0", "-pthread", "-fsized-deallocation",
                        *flags, native=native)
            for kind, flags, native in (("real", ["-fsanitize=address"], True), ("ours", [], False))]


def recorded(suite, folder, program, name, *options, **settings):
    """What asancol-run prints of a mistake, and what the process has in its file."""
    leaks = "yes" if name == "lost" else "no"
    argv = [RUN, f"--leaks={leaks}", f"--log-path={folder}/log", *options, "--", program, name]
    ran = run(argv, folder, ASANCOL=suite.asancol, **settings)
    paths = glob.glob(f"{folder}/log.*")
    expect(len(paths), 1, f"files: {ran.stderr.decode()}")
    with open(paths[0], encoding="utf-8") as file:
        text = file.read()
    os.unlink(paths[0])
    return ran, text


def check_beside(suite, folder, real, ours, name):
    """Each line is that of the runtime."""
    wanted = normal(run([real, name], folder).stderr.decode())
    ran, text = recorded(suite, folder, ours, name, "--format=asan")
    expect("\n".join(normal(text)), "\n".join(wanted), "in the file")
    expect("\n".join(normal(ran.stderr.decode())), "\n".join(wanted), "on standard error")
    expect_in(ran.stderr.decode(), "1 crashed" if name in CRASHES else f"asancol: {2 if name == 'lost' else 1} report")


def check_halts(suite, folder, real, ours, name):
    """The process prints the report itself, on whatever descriptor 2 is; its end is no crash, and there is one
    report."""
    wanted = said_at_halt(run([real, name], folder).stderr.decode())
    alone = run([ours, name], folder, ASANCOL_HALT="1")
    expect(alone.returncode, -6, "the status")
    is_kept = re.compile("(?:previously )?(?:allocated|freed) by ")
    expect(said_at_halt(alone.stderr.decode()), [it for it in wanted if not is_kept.match(it)], "alone")
    expect_in(alone.stderr.decode(), "==ABORTING\n", f"({ours}+0x")
    ran, text = recorded(suite, folder, ours, name, ASANCOL_HALT="1")
    expect(said_at_halt(ran.stderr.decode().partition("ABORTING\n")[0] + "ABORTING"), wanted, "recorded")
    expect_in(ran.stderr.decode(), "asancol: 1 report at 1 place; 1 process, ", "; all complete\n")
    expect("ended by" in ran.stderr.decode() or "halt_at" in ran.stderr.decode(), False, ran.stderr.decode())
    expect(text.count("ERROR: "), 1, text)
    expect_in(text, "==ABORTING\n")
    expect(ran.returncode, 99, "the status of the run")


# From the sources of tools, as of 2024; each has to find its groups in the text of some mistakes.
FRAME_OF_CLUSTERFUZZ = r"(?m)^\s*#(?P<id>\d+)\s+(?P<address>0x[0-9a-fA-F]+)\s+in\s+(?P<function>.+)\s+" \
    r"(?:\(?(?P<file>\S+?)(?::(?P<line>\d+))?(?::\d+)?\)?)(?: \(BuildId: \w+\))?$"
TOOLS = (
    ("ClusterFuzz", r".*ERROR: AddressSanitizer[: ]*([^(:;]+)", ALL[:-4] + ("overlap", "family", "type")),
    ("ClusterFuzz", r"ERROR: [a-zA-Z]+Sanitizer[: ]*(.*) on (?:unknown |)(?:address |)(0x[0-9a-f]+)",
     (*ACCESSES, "twice", *CRASHES, "family", "type")),
    ("ClusterFuzz", r"ERROR: AddressSanitizer[: ]*attempting double-free", ("twice",)),
    ("ClusterFuzz", r"ERROR: AddressSanitizer[: ]*attempting free on address which was not malloc", ("inside",)),
    ("ClusterFuzz", r"The signal is caused by a ([A-Z]+) memory access\.", ("null",)),
    ("ClusterFuzz", FRAME_OF_CLUSTERFUZZ, ALL),
    ("ClusterFuzz", r"(?m)^(?:Direct|Indirect) leak of (\d+) byte\(s\) in (\d+) object\(s\) allocated from:$",
     ("lost",)),
    ("CASR", r"==\d+==\s*ERROR: (LeakSanitizer|AddressSanitizer): (.*)\n", ALL),
    ("CASR", r"(?m)^ *#[0-9]+ +0x[0-9a-f]+ in main .*:\d+:?\d*$", ALL),
    ("CASR, crashwalk", r"(READ|WRITE) of size (\d+) at (0x[0-9a-f]+) thread T(\d+)", ACCESSES),
    ("AFL triage", r"==\d+==ERROR: AddressSanitizer: (\S+) on (?:unknown )?address (0x[0-9a-f]+)(?: at)? \(?"
     r"(?:at )?pc (0x[0-9a-f]+) bp (0x[0-9a-f]+) sp (0x[0-9a-f]+)", (*ACCESSES, *CRASHES)),
    ("AFL triage", r"(0x[0-9a-f]+) is located (\d+) bytes (inside of|before|after) (\d+)-byte region "
     r"\[(0x[0-9a-f]+),(0x[0-9a-f]+)\)", ("after", "before", "freed", "copy", "thread", *FREES, "family", "type")),
    ("AFL triage", r"Address (0x[0-9a-f]+) is located in stack of thread T(\d+) at offset (\d+) in frame",
     ("array", "scope")),
    ("AFL triage", r"is located \d+ bytes (after|before) global variable '(\w+)' defined in '(\S+)' ", ("global",)),
    ("CTest", r"ERROR: AddressSanitizer: (.*) on.*", (*ACCESSES, *FREES, *CRASHES, "family", "type")),
    ("CTest", r"(?:Direct|Indirect) leak of .*", ("lost",)),
    ("VS Code, CLion", r"(?m)^==(\d+)==ERROR: (?:Address|Leak)Sanitizer: ", ALL),
    ("VS Code, CLion", r"(?m)^    #\d+ 0x[0-9a-f]+ in .+ (/.+):(\d+):(\d+)$", ALL),
    ("all", r"(?m)^SUMMARY: AddressSanitizer: (?:[\w-]+ \S+:\d+(?::\d+)? in \w+|\d+ byte\(s\) leaked in \d+ "
     r"allocation\(s\)\.)", ALL),
    ("asan_symbolize.py", r"(?m)^ *#(\d+) (0x[0-9a-f]+) +in .+ +\((.+)\+(0x[0-9a-f]+)\)",
     (*FREES, "copy", "freed", "lost", "family", "overlap")),
)


def check_tools(suite, folder, _, ours):
    """Each expression matches, and a strict reader of stacks comes to their ends: frames are numbered without gaps, and
    nothing is between them."""
    texts = {name: recorded(suite, folder, ours, name)[1] for name in ALL}
    for tool, expression, names in TOOLS:
        for name in names:
            if not re.search(expression, texts[name]):
                raise AssertionError(f"{tool}: {expression} in {name}: {texts[name]}")
    for text in texts.values():
        for stack in re.findall(r"(?m)(?:^    #\d+ .*\n)+", text):
            numbers = [int(it) for it in re.findall(r"(?m)^    #(\d+) ", stack)]
            expect(numbers, list(range(len(numbers))), stack)
        last = re.findall(r"(?m)^    #\d+ .*\n(.*)$", text)
        expect({it for it in last if not it.startswith("    #")} - {""}, set(), "what follows a stack")


def tests(suite, compiler):
    if not (compiler.cxx and compiler.has_sanitizer):
        leave_out(f"{compiler} text of AddressSanitizer: that is not there")
        return
    real, ours = built(suite, compiler)
    for name in ALL:
        suite.test(f"{compiler} text of AddressSanitizer {name}", check_beside, real, ours, name)
    for name in (*ACCESSES, *FREES):
        suite.test(f"{compiler} text of a halt {name}", check_halts, real, ours, name)
    suite.test(f"{compiler} text of AddressSanitizer for tools", check_tools, real, ours)
