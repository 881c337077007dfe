#!/usr/bin/env python3
"""Puts damaged files to asancol-report: results, baselines, suppressions, and what stands beside a trace.

usage: report/tests/mutations.py [--count N] [--seed S]

Each damaged file is read by its own process. It has to end with a status of the table in docs/REPORTS.md, within
seconds, and print no traceback. The last line is 'N passed, M failed'.
"""

import argparse
import json
import os
import signal
import subprocess
import sys
import tempfile
import traceback
from random import Random
from typing import Callable, List, NamedTuple, Tuple

sys.path.insert(0, f"{os.path.dirname(os.path.realpath(__file__))}/../..")  # where `testing` is

from testing import TOP, Failure, Suite, reports, side
from testing.programs import call
from asancol_report.main import main as report_main

# No reading may take longer, in seconds.
PATIENCE = 20

STATUSES = {0, 1, 2, 3, 4}

# What stands in the place of a part of a text.
PIECES = [b"", b"0", b"-1", b"1e999", b"NaN", b"null", b"[]", b"{}", b'""', b"9" * 5000, b"[" * 3000, b"\xff", b"\0",
          b"\n",
          b"\\ud800", b'"\xed\xa0\x80"', b"true", b"18446744073709551616", b"-9223372036854775809",
          b'"' + b"a" * 70000 + b'"',
          b"*" * 40, b"at:", b"fun:", b"%s%n", b"\x1b]0;x\x07", b"../" * 40, b"\xe2\x80\xae"]

NUMBERS = [0, 1, 0x7FFF_FFFF, 0xFFFF_FFFF, 1 << 63, (1 << 64) - 1, 1 << 47, 0x1000]


class Case(NamedTuple):
    """A file that is read, as it is when it is whole, and the words that read it."""

    name: str
    whole: bytes
    argv: List[str]


def damaged_text(random: Random, text: bytes) -> bytes:
    made = bytearray(text)
    for _ in range(random.choice([1, 1, 2, 5])):
        at = random.randrange(len(made) + 1)
        end = min(at + random.choice([0, 1, 1, 3, 10, 200]), len(made))
        made[at:end] = random.choice(PIECES) if random.random() < 0.8 else bytes([random.randrange(256)])
    return bytes(made[: random.randrange(len(made) + 1)]) if random.random() < 0.1 else bytes(made)


def changed_value(random: Random, value: object) -> object:
    """A JSON value with one of its parts replaced by one of another type or size."""
    if isinstance(value, dict) and value and random.random() < 0.9:
        key = random.choice(sorted(value))
        return {**value, key: changed_value(random, value[key])}
    if isinstance(value, list) and value and random.random() < 0.8:
        at = random.randrange(len(value))
        return [*value[:at], changed_value(random, value[at]), *value[at + 1:]]
    return random.choice([None, -1, 0, 2 ** 64, 1.5, float("inf"), "", "zz", "\udcff", "\x1b[2J", [], {}, [[]], True,
                          {"a": 1}, "x" * 5000, 10 ** 30])


def damaged_lines(random: Random, text: bytes) -> bytes:
    lines = text.splitlines()
    at = random.randrange(len(lines))
    lines[at] = json.dumps(changed_value(random, json.loads(lines[at]))).encode()
    return b"\n".join(lines) + b"\n"


def damaged_side(random: Random, text: bytes) -> bytes:
    """A side memory, of which numbers are others, or which is cut."""
    made = bytearray(text)
    for _ in range(random.choice([1, 2, 8])):
        at = random.choice([random.randrange(200), 4072 + random.randrange(600), side.MAPS_AT + random.randrange(3000),
                            side.INDEX_AT + random.randrange(32), side.FAULTS_AT + random.randrange(400)])
        made[at:at + 8] = random.choice([random.choice(NUMBERS).to_bytes(8, "little"), os.urandom(0), b"\n- /", b"\0"])
    return bytes(made[: random.randrange(len(made))]) if random.random() < 0.05 else bytes(made)


def status_of(argv: List[str]) -> Tuple[int, str]:
    """Runs asancol-report in its own process, and returns its status and what it wrote to standard error. A
    traceback is a status of 70, and one that takes too long of 128 and more."""
    reader, writer = os.pipe()
    child = os.fork()
    if child == 0:
        signal.alarm(PATIENCE)
        os.dup2(os.open(os.devnull, os.O_RDWR), 1)
        os.dup2(writer, 2)
        sys.stderr = open(2, "w", encoding="utf-8", errors="surrogateescape", closefd=False)
        status = 70
        try:
            status = report_main(argv, f"{TOP}/report")
            sys.stdout.flush()
        except BaseException:
            traceback.print_exc()
        sys.stderr.flush()
        os._exit(status)
    os.close(writer)
    with open(reader, encoding="utf-8", errors="replace") as errors:
        text = errors.read()
    _, ended = os.waitpid(child, 0)
    return (os.WEXITSTATUS(ended) if os.WIFEXITED(ended) else 128 + os.WTERMSIG(ended)), text


def cases_in(folder: str) -> List[Case]:
    """Makes whole files of each sort in a folder, from a trace that is written here."""
    reports.one_trace(folder)
    outputs = [f"--{name}={folder}/out.{name}" for name in reports.FORMS]
    reports.report(folder, "--trace", "a.trace", "--json", "a.jsonl")
    with open(f"{folder}/a.jsonl", encoding="utf-8") as file:
        entries = [json.loads(line) for line in file]
    entries[1].update(signal=11, address="10", stack=entries[2]["stack"], crash="SEGV", fingerprint="0123456789abcdef")
    result = "".join(json.dumps(entry) + "\n" for entry in entries).encode()
    with open(f"{folder}/a.trace.where", "rb") as file:
        beside = file.read(side.FAULTS_AT + 4096)
    rules = (b"# known\nat:heap-buffer-overflow:drop@program.c\nfun:^ma*\nheap-use-after-free:*x*\nSEGV:x\nsrc:a\n"
             b"obj:/b$\ncalled_from_lib:c\n")
    return [
        Case("result.jsonl", result, [f"{folder}/result.jsonl", *outputs]),
        Case("baseline.jsonl", result, [f"{folder}/a.jsonl", "--baseline", f"{folder}/baseline.jsonl"]),
        Case("rules", rules, [f"{folder}/a.jsonl", "--suppressions", f"{folder}/rules"]),
        Case("a.trace.where", beside, ["--trace", f"{folder}/a.trace", "--gen-suppressions", *outputs[:1]]),
    ]


def damage_of(random: Random, case: Case) -> bytes:
    if case.name == "a.trace.where":
        return damaged_side(random, case.whole)
    forms: List[Callable[[Random, bytes], bytes]] = [damaged_text]
    if case.name.endswith(".jsonl"):
        forms.append(damaged_lines)
    return random.choice(forms)(random, case.whole)


def damage(count: int, seed: int) -> Tuple[int, int]:
    """Reads this many damaged files, and returns how many passed and failed. Those that failed are shown."""
    passed = failed = 0
    room = "/dev/shm" if os.access("/dev/shm", os.W_OK) else None
    with tempfile.TemporaryDirectory(prefix="asancol.", dir=room) as folder:
        folder = os.path.realpath(folder)
        reports.write_checker(folder)
        cases = cases_in(folder)
        os.environ["ASANCOL"] = os.environ.get("ASANCOL", f"{folder}/asancol")
        for number in range(count):
            random = Random(f"{seed}/{number}")
            # Side memories are large, and take a symbolizer.
            case = random.choice(cases[:3] if number % 16 else cases[3:])
            data = damage_of(random, case)
            with open(f"{folder}/{case.name}", "wb") as file:
                file.write(data)
            status, errors = status_of(case.argv)
            is_good = status in STATUSES and "Traceback" not in errors and (status not in (2, 4) or errors != "")
            passed, failed = passed + is_good, failed + (not is_good)
            if not is_good and failed <= 3:
                print(f"FAILED {case.name}, draw {number} of seed {seed}: status {status}: {errors[-1500:]}",
                      flush=True)
    return passed, failed


def check_mutations(suite: Suite, folder: str) -> None:
    """A hundred of them, in a process without threads, since each reading is a fork of it."""
    ran = call([sys.executable, __file__, "--count", "100"], cwd=folder, text=True, check=False,
               stdout=subprocess.PIPE, stderr=subprocess.STDOUT)
    if ran.returncode:
        raise Failure(ran.stdout)


def tests(suite: Suite) -> None:
    suite.test("mutations", check_mutations)


def main() -> int:
    reader = argparse.ArgumentParser(description=(__doc__ or "").split("\n", 1)[0])
    reader.add_argument("--count", type=int, default=600)
    reader.add_argument("--seed", type=int, default=1)
    request = reader.parse_args()
    passed, failed = damage(request.count, request.seed)
    print(f"{passed} passed, {failed} failed")
    return 1 if failed or not passed else 0


if __name__ == "__main__":
    sys.exit(main())
