"""The report as SARIF 2.1.0, for code scanning."""

from __future__ import annotations

import json
import os
from typing import Any, Dict, List, Optional, TextIO, Tuple
from urllib.parse import quote

from . import RELEASE
from .alerts import level_of, root_of, steps_of, WARNING, words_of
from .class_names import INDIRECT_LEAK, LEAK
from .classes import advice_for, what_is
from .crashes import AWAITED
from .findings import Finding, Frame, own_frames, place_text, Stack, SYSTEM_LIBRARY
from .json_lines import RECORDER
from .options import Options
from .results import Process, Results, Run, Sightings
from .sources import Sources
from .weaknesses import WEAKNESS_URL, weakness_of
from .words import command_line, date_and_time, shown_path, signal_name, whole_characters

SCHEMA = "https://json.schemastore.org/sarif-2.1.0.json"
ROOT = "SRCROOT"
# GitHub ranks by this: 7.0 to 8.9 is "high".
SEVERITY = "8.0"
# The most machines that are named for a result.
MAX_MACHINES = 100

Part = Dict[str, Any]


def uri(path: str) -> str:
    return quote(path.encode("utf-8", "surrogateescape"), safe="/-._~+@,=")


def message(text: str) -> Part:
    return {"text": whole_characters(text)}


def artifact(path: str, root: str) -> Part:
    shown = shown_path(path, root)
    if shown.startswith("/"):
        return {"uri": "file://" + uri(shown)}
    return {"uri": uri(shown[2:] if shown.startswith("./") else shown), "uriBaseId": ROOT}


def location(frame: Frame, root: str, text: str = "", program: str = "") -> Part:
    """Returns where a frame is: in a source file, or else in a module, or else in a program, if that is given."""
    made: Part = {}
    if frame.file:
        made["physicalLocation"] = {"artifactLocation": artifact(frame.file, root)}
        if SYSTEM_LIBRARY.match(frame.module):
            made["physicalLocation"]["artifactLocation"].pop("uriBaseId", None)  # a path in the sources of the system
        if frame.line:
            made["physicalLocation"]["region"] = {"startLine": frame.line}
            if frame.column:
                made["physicalLocation"]["region"]["startColumn"] = frame.column
    elif frame.module and not frame.note:
        made["physicalLocation"] = {"artifactLocation": artifact(frame.module, root),
                                    "address": {"relativeAddress": frame.offset, "kind": "instruction"}}
    elif frame.module or program:
        made["physicalLocation"] = {"artifactLocation": artifact(frame.module or program, root)}
    if frame.function:
        made["logicalLocations"] = [{"fullyQualifiedName": whole_characters(frame.function), "kind": "function"}]
    if text or not made:
        made["message"] = message(text or place_text(frame))
    return made


def stack(title: str, frames: Stack, root: str) -> Part:
    return {"message": message(title),
            "frames": [{"location": location(frame, root), "module": whole_characters(os.path.basename(frame.module))}
                       if frame.module else {"location": location(frame, root)} for frame in frames]}


def stacks_of(finding: Finding) -> List[Tuple[str, Stack]]:
    """Returns where things happened, the last first, and then where the threads were created that have done them."""
    created = [(title[:-len(" at")] + " here", frames) for title, frames in finding.threads.titles() if frames]
    return [*reversed(steps_of(finding)), *created]


def properties(finding: Finding, seen: Sightings, process: Optional[Process]) -> Part:
    made: Part = {"processes": finding.processes, "runs": seen.runs, "runsOfCommand": seen.of_command}
    if finding.by_recorder:
        made["by"] = RECORDER
    if finding.is_forgotten:
        made["forgotten"] = True
    if process is not None and process.command:
        made["command"] = whole_characters(command_line(process.command))
    if seen.machines:
        made["machines"] = [whole_characters(name) for name in seen.machines[:MAX_MACHINES]]
        made["machineCount"] = len(seen.machines)
    return made


def result(finding: Finding, results: Results, rule: int, ordinal: int, root: str) -> Part:
    steps, seen = steps_of(finding), results.sightings(finding)
    made: Part = {
        "ruleId": finding.class_name,
        "ruleIndex": rule,
        "level": level_of(finding),
        "kind": "fail",
        "message": message(words_of(finding)),
        "locations": [location(finding.top, root, program=results.program_of(finding))],
        "partialFingerprints": {"asancol/v1": finding.fingerprint,
                                "primaryLocationLineHash": f"{finding.fingerprint}:{ordinal}"},
        "occurrenceCount": finding.count,
        "stacks": [stack(title, frames, root) for title, frames in stacks_of(finding)],
        "relatedLocations": [dict(location(own_frames(frames)[0], root, title), id=number)
                             for number, (title, frames) in enumerate(steps[:-1], 1)],
        "codeFlows": [{"threadFlows": [{"locations": [{"location": location(own_frames(frames)[0], root, title)}
                                                      for title, frames in steps]}]}],
        "properties": properties(finding, seen, results.first_process(finding)),
    }
    if seen.first:
        made["provenance"] = {"firstDetectionTimeUtc": stamp(seen.first), "lastDetectionTimeUtc": stamp(seen.last)}
    if finding.suppression:
        made["suppressions"] = [{"kind": "external", "justification": whole_characters(finding.suppression)}]
    elif finding.is_awaited:
        made["suppressions"] = [{"kind": "external", "justification": AWAITED}]
    if finding.is_known is not None:
        made["baselineState"] = "unchanged" if finding.is_known else "new"
    return made


def results_of(results: Results, rules: List[str], root: str) -> List[Part]:
    """Returns a result for each bug: what may follow from an earlier report has none."""
    ordinals: Dict[str, int] = {}
    made = []
    for finding in (it for it in results.all_places() if it.follows is None):
        ordinal = ordinals[finding.fingerprint] = ordinals.get(finding.fingerprint, 0) + 1
        made.append(result(finding, results, rules.index(finding.class_name), ordinal, root))
    return made


def rule(name: str) -> Part:
    short, advice = what_is(name), advice_for(name)
    weakness = weakness_of(name)
    made: Part = {
        "id": name,
        "name": "".join(word[:1].upper() + word[1:] for word in name.split("-")),
        "shortDescription": {"text": short},
        "fullDescription": {"text": f"{short}. {advice}"},
        "help": {"text": f"{short}. {advice}", "markdown": f"**{name}**: {short}.\n\n{advice}"},
    }
    if weakness:
        made["helpUri"] = WEAKNESS_URL.format(weakness)
    tags = ["memory", *[f"external/cwe/cwe-{weakness:03}"] * bool(weakness)]
    if name in (LEAK, INDIRECT_LEAK):
        made["defaultConfiguration"] = {"level": WARNING}
        made["properties"] = {"tags": tags, "precision": "very-high", "problem.severity": WARNING}
    else:
        made["defaultConfiguration"] = {"level": "error"}
        made["properties"] = {"tags": ["security", *tags], "precision": "very-high", "problem.severity": "error",
                              "security-severity": SEVERITY}
    return made


def invocation(run: Run) -> Part:
    texts = [f"process {process.pid} {command_line(process.command[:1])} was incomplete: {process.why}"
             for process in run.processes.values() if not process.is_complete] + run.troubles
    notes = [f"process {process.pid} {command_line(process.command[:1])} {process.why}: seen up to there"
             for process in run.processes.values() if process.is_abrupt]
    notes += [f"not checked: {', '.join(run.unchecked)}"] * bool(run.unchecked)
    notes += [f"not checked: {', '.join(run.unrecorded)} (not built with asancol-cc)"] * bool(run.unrecorded)
    made: Part = {
        "commandLine": whole_characters(command_line(run.command)),
        "executionSuccessful": not texts and not run.failure,
        "toolExecutionNotifications": [{"level": "error", "message": message(text)} for text in texts]
        + [{"level": "note", "message": message(text)} for text in notes],
    }
    if run.host:
        made["machine"] = whole_characters(run.host)
    if run.directory:
        made["workingDirectory"] = {"uri": "file://" + uri(run.directory)}
    if run.failure:
        made["exitCodeDescription"] = run.failure
    if run.signal:
        made.update(exitSignalNumber=run.signal, exitSignalName=signal_name(run.signal))
    elif run.has_ended:
        made["exitCode"] = run.status
    if run.time:
        made["startTimeUtc"] = stamp(run.time)
        made["endTimeUtc"] = stamp(run.time + run.seconds)
    return made


def stamp(seconds: float) -> str:
    return date_and_time(seconds, "%Y-%m-%dT%H:%M:%SZ")


def write(results: Results, out: TextIO, options: Options, sources: Sources) -> None:
    root = root_of(options)
    rules = sorted({finding.class_name for finding in results.all_places()})
    driver = {"name": "asancol", "version": RELEASE, "semanticVersion": RELEASE,
              "rules": [rule(name) for name in rules]}
    run: Part = {
        "tool": {"driver": driver},
        "originalUriBaseIds": {ROOT: {"uri": "file://" + uri(root.rstrip("/")) + "/"}},
        "columnKind": "unicodeCodePoints",
    }
    if options.value("--category"):
        # Code scanning takes what stands before the last slash for the category.
        run["automationDetails"] = {"id": whole_characters(options.value("--category").rstrip("/") + "/")}
    if results.notes:
        run["properties"] = {"notes": [whole_characters(note) for note in results.notes]}
    # There may be a hundred thousand runs: each has a line, and is encoded when it is written.
    encode = json.JSONEncoder().encode
    out.write(f'{{"$schema": {encode(SCHEMA)}, "version": "2.1.0", "runs": [{encode(run)[:-1]},\n"invocations": [')
    out.writelines((",\n" if number else "\n") + encode(invocation(each)) for number, each in enumerate(results.runs))
    out.write('],\n"results": [')
    out.writelines((",\n" if number else "\n") + encode(each)
                   for number, each in enumerate(results_of(results, rules, root)))
    out.write("]}]}\n")
