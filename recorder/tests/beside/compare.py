"""What two executions of a program say of each other: with AddressSanitizer's runtime, and recorded."""

import os
from typing import Callable, Dict, Iterator, List, NamedTuple, Sequence, Tuple

from beside.execute import NOT_BUILT, Execution, Report
from beside.tables import CRASHES, UNCLAIMED

SAME, OTHER, FALSE, MISSED, LEFT_OUT = "same", "other", "false", "missed", "left out"
# A test for another system or processor.
ELSEWHERE = "elsewhere"
# What the recorded way says in place of a report.
NO_REPORT = ("incomplete", NOT_BUILT)
# The worst comes last.
ORDER = [ELSEWHERE, LEFT_OUT, SAME, OTHER, FALSE, MISSED]
NOT_RUN = (ELSEWHERE, LEFT_OUT)


class Verdict(NamedTuple):
    """The verdict on an execution, the reason, and its number in its test."""

    kind: str
    why: str = ""
    where: str = ""


class Job(NamedTuple):
    """A test that is to be run."""

    suite: str
    name: str
    run: Callable[[], List[Verdict]]


class Outcome(NamedTuple):
    """The result of a test: the verdict on each of its executions."""

    suite: str
    name: str
    verdicts: List[Verdict]

    @property
    def kind(self) -> str:
        return max((it.kind for it in self.verdicts), key=ORDER.index)

    def whys(self) -> Iterator[str]:
        """The differences, each with its place."""
        found: Dict[Tuple[str, str], List[str]] = {}
        for it in self.verdicts:
            if it.kind == self.kind or it.kind not in (SAME, *NOT_RUN):
                found.setdefault((it.kind, it.why), []).append(it.where)
        for (kind, why), where in found.items():
            yield " ".join(it for it in [f"{kind}:", *dict.fromkeys(where), why] if it)


def text_of(report: Report) -> str:
    lines = zip(("at", "allocated at", "freed at"), (report.line, report.allocated, report.freed))
    return " ".join([report.wrong, *(f"{words} {os.path.basename(line)}" for words, line in lines if line)])


def compare_statuses(real: Execution, recorded: Execution) -> Verdict:
    if real.status == recorded.status:
        return Verdict(SAME)
    return Verdict(OTHER, f"status {recorded.status}, and {real.status} with AddressSanitizer")


def left_out(real: Execution) -> str:
    """Why an execution is not compared, if it is not."""
    if real.option:
        return f"the option {real.option}"
    return UNCLAIMED.get(real.report.wrong, "") if real.report else ""


def is_crash(report: Report) -> bool:
    return report.wrong.startswith("SIG")


def expected(wanted: Report, got: Report) -> Report:
    """The report that says the same as AddressSanitizer's. Lines that it does not have are not compared, nor where a
    stack is used up, which depends on the sizes of frames."""
    if wanted.wrong == "stack-overflow" and got.line:
        wanted = wanted._replace(line="")
    lines = (it or other for it, other in zip(wanted[1:], got[1:]))
    return Report(CRASHES.get(wanted.wrong, wanted.wrong), *lines)


def compare(real: Execution, recorded: Execution) -> Verdict:
    wanted, got = real.report, recorded.report
    if got and got.wrong.startswith(NO_REPORT):
        return Verdict(OTHER, text_of(got))
    if not wanted:
        return Verdict(FALSE, text_of(got)) if got and not is_crash(got) else compare_statuses(real, recorded)
    if not got or (is_crash(got) and wanted.wrong not in CRASHES):
        return Verdict(MISSED, f"{text_of(wanted)}{f', and here {text_of(got)}' if got else ''}")
    if got == expected(wanted, got):
        return Verdict(SAME)
    return Verdict(OTHER, f"{text_of(got)}, and with AddressSanitizer {text_of(wanted)}")


def compare_all(real: Sequence[Execution], record: Callable[[], List[Execution]], where: str = "") -> List[Verdict]:
    """Compares the executions of a test. It is only recorded if there is one that is not left out."""
    whys = [left_out(it) for it in real]
    if all(whys):
        return [Verdict(LEFT_OUT, why) for why in whys]
    recorded = record()
    verdicts = [Verdict(LEFT_OUT, why) if why else compare(*both) for why, both in zip(whys, zip(real, recorded))]
    if len(recorded) != len(real):
        verdicts.append(Verdict(OTHER, f"{len(recorded)} executions, and {len(real)} with AddressSanitizer"))
    return [it._replace(where=where) for it in verdicts]
