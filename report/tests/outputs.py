"""Results that are read again and merged, and outputs in each form."""

import html.parser
import json
import os
import re
import shutil
import subprocess
import xml.dom.minidom
from typing import Any, Dict, List, Optional, Set, Tuple

import browser
from testing import expect, expect_in, expect_not_in, leave_out, reports
from testing.programs import call
from testing.reports import END, FORMS, FREED, Feed, build, freed_block, one_trace, report, report_test, write_trace
from testing.side import fault, of_program, side


@report_test
def results_are_read_again(folder: str) -> None:
    one_trace(folder)
    first = report(folder, "--trace", "a.trace", "--json", "a.jsonl", "--gen-suppressions")
    again = report(folder, "a.jsonl", "--json", "b.jsonl", "--gen-suppressions")
    expect(again, first, "the text")
    expect(report(folder, "a.jsonl", "b.jsonl", "--gen-suppressions"), first, "a run that is given twice")
    with open(f"{folder}/a.jsonl", "rb") as one, open(f"{folder}/b.jsonl", "rb") as other:
        expect(one.read(), other.read(), "both files")
    with open(f"{folder}/a.jsonl", encoding="utf-8") as file:
        expect(report(folder, "-", "--gen-suppressions", stdin=file), first, "from standard input")
    os.unlink(f"{folder}/program.c")
    expect(report(folder, "a.jsonl", "--gen-suppressions"), first, "without the source")
    lines = report(folder, "a.jsonl", "--json", "-").out.splitlines()
    expect([json.loads(line)["type"] for line in lines], ["run", "process", "finding", "finding"], "to standard output")


@report_test
def runs_are_merged(folder: str) -> None:
    for number in range(3):
        feed = Feed(folder, "--json", f"{number}.jsonl")
        feed.begin(f"run-{number}")
        feed.process(0, (FREED + END) if number else "")
        feed.end()
    ran = report(folder, "0.jsonl", "1.jsonl", "2.jsonl", "1.jsonl", "--json", "all.jsonl")
    expect_in(ran.out, "(2 times, 2 processes)",
              "2 reports at 1 place; 3 processes in 3 runs, 27 events; all complete")
    again = report(folder, "2.jsonl", "all.jsonl", "0.jsonl")
    expect((again.status, again.out), (ran.status, ran.out), "merged again")


@report_test
def what_was_not_checked(folder: str) -> None:
    """Names of several runs stand once, and what a packet had no room for is counted."""
    both = {"unchecked": ["u.o"], "unchecked_more": 7, "system": ["libz.so.1"]}
    runs: List[Tuple[str, Dict[str, Any], str]] = [
        ("a", {"system": ["libz.so.1"]}, "all complete; not checked: 1 library of the system\n"),
        ("b", {"system": ["libz.so.1"], "system_more": 2}, "all complete; not checked: 3 libraries of the system\n"),
        ("c", {"unchecked": ["u.o", "v.o"]}, " events; not checked: u.o, v.o\n"),
        ("d", both, " events; not checked: u.o and 7 more, and 1 library of the system\n"),
        ("e", {"system_more": 0}, " events; all complete\n"),
        ("f", {"unrecorded": ["t/old"]}, " events; not checked: 1 program: t/old (not built with asancol-cc)\n"),
        ("g", {"unrecorded": ["t/a", "t/old"], "unrecorded_more": 3, **both}, " events; not checked: u.o and 7 more, "
         "5 programs: t/a, t/old and 3 more (not built with asancol-cc), and 1 library of the system\n"),
    ]
    for name, entry, text in runs:
        feed = Feed(folder, "--json", name)
        feed.begin(name)
        feed.process(0)
        expect_in(feed.end(**entry).out, text)
    for names, text in (("ab", "all complete; not checked: 3 libraries of the system\n"),
                        ("abcde", " events; not checked: u.o, v.o and 7 more, and 3 libraries of the system\n"),
                        ("cf", "; not checked: u.o, v.o, and 1 program: t/old (not built with asancol-cc)\n"),
                        ("fg", "5 programs: t/a, t/old and 3 more (not built with asancol-cc), and 1 library of")):
        expect_in(report(folder, *names, "--json", "all").out, text)
        expect_in(report(folder, "all").out, text)


@report_test
def bad_results(folder: str) -> None:
    run = '{"type":"run","version":1,"run":0,"id":"a","command":["x"]}\n'
    for text, message in (
        ('{"type":"run","version":2}\n',
         "version 2 of results is newer than this asancol-report, which knows version 1"),
        (run + "nothing\n", "bad.jsonl:2: not a result of asancol-report --json"),
        (run + '{"type":"process","run":4}\n', "bad.jsonl:2: not a result"),
        (run + '{"type":"finding"}\n', "bad.jsonl:2: not a result"),
        (run + '{"kind":"other"}\n', "bad.jsonl:2: not a result"),
        (run + "[" * 100000 + "\n", "bad.jsonl:2: not a result"),
        ("", "bad.jsonl: there is no run in it"),
        ("\0\xff\n", "bad.jsonl:1: not a result"),
    ):
        with open(f"{folder}/bad.jsonl", "w", encoding="latin-1") as file:
            file.write(text)
        ran = report(folder, "bad.jsonl")
        expect(ran.status, 4, message)
        expect_in(ran.err, message)
        if text.startswith(run):
            expect_in(ran.out, "asancol: bad.jsonl: INCOMPLETE: bad.jsonl:2: not a", "; INCOMPLETE\n")
        else:
            expect(ran.out, "", message)
    expect_in(report(folder, "missing.jsonl").err, "asancol-report: missing.jsonl: No such file or directory\n")
    odd = {"type": "finding", "run": 0, "fingerprint": "f", "class": 3, "access": None, "size": "x", "address": [],
           "stack": [3, {"line": "x", "file": 4, "offset": "zz"}], "count": -1, "block": 4, "freed": {}}
    with open(f"{folder}/odd.jsonl", "w", encoding="utf-8") as file:
        file.write(run + json.dumps(odd) + "\n")
    ran = report(folder, "odd.jsonl", *(f"--{name}=odd.{name}" for name in FORMS))
    expect((ran.status, ran.err), (1, ""), "fields of other types")


def sarif_of(folder: str, *argv: str) -> dict:
    ran = report(folder, "--trace", "a.trace", "--sarif", "-", *argv)
    expect(ran.err, "", "errors")
    return json.loads(ran.out)


@report_test
def sarif(folder: str) -> None:
    one_trace(folder)
    document = sarif_of(folder)
    expect(document["version"], "2.1.0", "version")
    (run,) = document["runs"]
    rules = [rule["id"] for rule in run["tool"]["driver"]["rules"]]
    expect(rules, ["heap-buffer-overflow", "heap-use-after-free"], "rules")
    overflow, freed = run["results"]
    expect(freed["message"]["text"], "heap-use-after-free: load of 4 bytes, byte 0 of a freed block of 16 bytes", "")
    expect((freed["ruleId"], freed["ruleIndex"], freed["occurrenceCount"]), ("heap-use-after-free", 1, 3), "rule")
    place = freed["locations"][0]["physicalLocation"]
    expect(place["artifactLocation"], {"uri": "program.c", "uriBaseId": "SRCROOT"}, "URI")
    expect(place["region"]["startLine"], 7, "line")
    expect(run["originalUriBaseIds"]["SRCROOT"]["uri"], f"file://{folder}/", "root")
    steps = freed["codeFlows"][0]["threadFlows"][0]["locations"]
    expect([step["location"]["message"]["text"] for step in steps],
           ["block allocated here", "block freed here", "load of 4 bytes here"], "steps")
    titles = [stack["message"]["text"] for stack in overflow["stacks"]]
    expect(titles, ["store of 1 byte here", "block allocated here"], "stacks")
    expect(run["invocations"][0]["executionSuccessful"], True, "success")
    write_trace(folder, "b.trace", "p0 end no-close events 9 offset 9 reports 0\n", side(ending=2))
    invocation = json.loads(report(folder, "--trace", "b.trace", "--sarif", "-").out)["runs"][0]["invocations"][0]
    expect(invocation["executionSuccessful"], False, "not whole")
    expect_in(invocation["toolExecutionNotifications"][0]["message"]["text"], "its trace ended as no-close")
    report(folder, "--trace", "a.trace", "--json", "a.jsonl")
    document = json.loads(report(folder, "a.jsonl", "--baseline", "a.jsonl", "--sarif", "-").out)
    expect({each["baselineState"] for each in document["runs"][0]["results"]}, {"unchanged"}, "baseline")


@report_test
def sarif_has_its_schema(folder: str) -> None:
    try:
        import jsonschema
    except ImportError:
        leave_out("sarif_has_its_schema: python3-jsonschema is not there")
        return
    with open(f"{os.path.dirname(__file__)}/sarif-schema.json", encoding="utf-8") as file:
        schema = json.load(file)
    one_trace(folder)
    jsonschema.validate(sarif_of(folder, "--category", "gcc"), schema)
    for name, verdicts, parts in (
        ("empty", "p0 end closed events 0 offset 9 reports 0\n", side()),
        ("cut", FREED + "p0 end no-close events 9 offset 9 reports 1\n", side(ending=4)),
        ("unknown", FREED + END, None),
        ("odd", FREED + END, side("1000-9000 r-xp 0 0:0 1 /tmp/\xff </script> %41\n", [], [fault(0x2000)],
                                  [0, 0, 0, 0, 1], argv=["\udcff<&\1"])),
    ):
        write_trace(folder, f"{name}.trace", verdicts, parts)
        ran = report(folder, "--trace", f"{name}.trace", "a.trace", "--sarif", "-")
        jsonschema.validate(json.loads(ran.out), schema)
        check_for_github(json.loads(ran.out)["runs"][0])


def check_for_github(run: Any) -> None:
    """What code scanning asks for besides the schema."""
    rules = run["tool"]["driver"]["rules"]
    for rule in rules:
        expect(all(rule[name]["text"] for name in ("shortDescription", "fullDescription", "help")), True, str(rule))
    for result in run["results"]:
        expect(rules[result["ruleIndex"]]["id"], result["ruleId"], "rule")
        place = result["locations"][0]["physicalLocation"]["artifactLocation"]
        expect(place["uri"].startswith("file:///") or place.get("uriBaseId") == "SRCROOT", True, str(place))
        expect(place["uri"].startswith(("/", ".")), False, str(place))
        expect_in(result["partialFingerprints"]["primaryLocationLineHash"], result["partialFingerprints"]["asancol/v1"])


@report_test
def junit(folder: str) -> None:
    one_trace(folder)
    write_trace(folder, "b\1<&\".trace", END, side())
    write_trace(folder, "c.trace", "p0 end no-close events 9 offset 9 reports 0\n",
                side(argv=["\udcff\x1b[31m"], ending=2))
    report(folder, "--trace", "a.trace", "b\1<&\".trace", "c.trace", "--junit", "out.xml")
    document = xml.dom.minidom.parse(f"{folder}/out.xml")
    (suite,) = document.getElementsByTagName("testsuite")
    expect([suite.getAttribute(it) for it in ("tests", "failures", "errors")], ["3", "1", "1"], "counts")
    failed, passed, broken = document.getElementsByTagName("testcase")
    (failure,) = failed.getElementsByTagName("failure")
    expect(failure.getAttribute("type"), "heap-buffer-overflow", "type")
    expect_in(failure.firstChild.data, "byte 0 of a freed block")
    expect(len(passed.childNodes), 0, "a run that passed")
    expect_in(broken.getElementsByTagName("error")[0].getAttribute("message"), "\\xff\\x1b[31m", "INCOMPLETE")


@report_test
def junit_has_its_schema(folder: str) -> None:
    if not shutil.which("xmllint"):
        leave_out("junit_has_its_schema: xmllint is not there")
        return
    schema = f"{os.path.dirname(os.path.abspath(__file__))}/junit-schema.xsd"
    one_trace(folder)
    write_trace(folder, "b\1<&\".trace", END, side())
    odd = side(argv=["\udcff\x1b[31m"], ending=2)
    write_trace(folder, "c.trace", "p0 end no-close events 9 offset 9 reports 0\n", odd)
    for argv in (["--trace", "a.trace", "b\1<&\".trace", "c.trace"], ["--trace", "a.trace", "a.trace"],
                  ["--trace", "a.trace", "c.trace", "--no-machines"]):
        report(folder, *argv, "--junit", "out.xml")
        ran = call(["xmllint", "--noout", "--schema", schema, "out.xml"], cwd=folder, capture_output=True,
                   text=True, check=False)
        expect(ran.returncode, 0, ran.stderr)


@report_test
def junit_names_the_tests(folder: str) -> None:
    """One command for asancol-run has many tests: which of them it was is said by the words of the process."""
    feed = Feed(folder, "--junit", "out.xml", "--html", "out.html", "--sarif", "out.sarif")
    feed.begin()
    feed.process(0, FREED + END, command=["./tests", "Parser", "handles <"])
    feed.end()
    (failure,) = xml.dom.minidom.parse(f"{folder}/out.xml").getElementsByTagName("failure")
    expect_in(failure.firstChild.data, "==100==ERROR", "processes\n  100 ./tests Parser 'handles <'\n")
    with open(f"{folder}/out.html", encoding="utf-8") as file:
        expect_in(file.read(), "process 100: <code>./tests Parser &#x27;handles &lt;&#x27;</code>")
    with open(f"{folder}/out.sarif", encoding="utf-8") as file:
        expect(json.load(file)["runs"][0]["results"][0]["properties"]["command"], "./tests Parser 'handles <'", "SARIF")


@report_test
def junit_has_what_a_run_has(folder: str) -> None:
    """Of a place that several runs have seen, a test case has what its own run saw."""
    program = build(folder)
    parts = of_program(program, [freed_block(program)], [0, 0, 0, 0, 1, 1])
    for number in (1, 2):
        feed = Feed(folder, "--json", f"{number}.jsonl")
        feed.begin(f"run-{number}")
        feed.process(number, "".join(FREED.replace("#5", f"#{4 + it}") for it in range(1, number + 1)) + END, parts,
                     command=["./tests", str(number)])
        feed.end()
    expect_in(report(folder, "1.jsonl", "2.jsonl", "--junit", "out.xml").out, "==101==ERROR", "(3 times, 2 processes)")
    first, second = xml.dom.minidom.parse(f"{folder}/out.xml").getElementsByTagName("failure")
    expect_in(first.firstChild.data, "==101==ERROR: asancol: heap-use-after-free: load of 4 bytes\n",
              "  101 ./tests 1\n")
    expect_in(second.firstChild.data, "==102==ERROR", "(2 times, 1 process)\n", "  102 ./tests 2\n")
    expect_not_in(second.firstChild.data, "101")


@report_test
def junit_has_the_tests_of_a_suite(folder: str) -> None:
    """One run around a suite has a test case for each command line, with what its processes and their children have."""
    program = build(folder)
    parts = of_program(program, [freed_block(program)], [0, 0, 0, 0, 1, 1])
    feed = Feed(folder, "--json", "a.jsonl")
    feed.begin(command=["ctest"])
    feed.process(0, command=["/tmp/tests/good"])
    feed.process(1, FREED + END, parts, command=["/tmp/tests/bad", "1"])
    feed.process(2, FREED + END, parts, command=["/tmp/tests/bad", "2"])
    feed.process(3, FREED + END, parts, command=["/tmp/tests/bad", "2"])
    feed.process(4, command=["/tmp/tests/lost"], whole=False, why="its recording ended early")
    feed.end(status=8)
    for again in ("a.jsonl", "b.jsonl"):
        ran = report(folder, again, "--junit", "out.xml", "--json", "b.jsonl", "--html", "out.html")
        expect_in(ran.out, "  process: /tmp/tests/bad 1\n")
        with open(f"{folder}/out.html", encoding="utf-8") as file:
            expect_in(file.read(), '<span class="near">process <code>/tmp/tests/bad 1</code></span>')
        cases = xml.dom.minidom.parse(f"{folder}/out.xml").getElementsByTagName("testcase")
        expect([it.getAttribute("name") for it in cases],
               ["ctest", "tests/good", "tests/bad 1", "tests/bad 2", "tests/lost"], "names")
        expect([[each.tagName for each in it.childNodes][:1] for it in cases],
               [["failure"], [], ["failure"], ["failure"], ["error"]], "what came of them")
        expect(cases[0].getElementsByTagName("failure")[0].getAttribute("type"), "command", "the run")
        expect_in(cases[3].getElementsByTagName("failure")[0].firstChild.data, "==102==ERROR: asancol: heap-use-after-",
                  "  102 /tmp/tests/bad 2\n")


@report_test
def junit_names(folder: str) -> None:
    """Merged, no two test cases have one name, and none has the name of a machine or what differs on it."""
    def names(*runs: Tuple[str, str, List[str]], argv: Tuple[str, ...] = ()) -> List[str]:
        files = []
        for number, (host, directory, command) in enumerate(runs):
            run = {"type": "run", "version": 1, "run": 0, "id": str(number), "command": command, "host": host,
                   "directory": directory}
            reports.write_text(f"{folder}/{number}.jsonl", json.dumps(run) + "\n")
            files.append(f"{number}.jsonl")
        report(folder, *files, "--junit", "out.xml", *argv)
        cases = xml.dom.minidom.parse(f"{folder}/out.xml").getElementsByTagName("testcase")
        return [case.getAttribute("name") for case in cases]

    check, test = ["make", "check"], ["./test"]
    expect(names(("a", "/s", check), ("a", "/s", test)), ["make check", "./test"], "two commands")
    expect(names(("a", "/s", check), ("a", "/s", check), ("a", "/s", check)),
           ["make check", "make check #2", "make check #3"], "one command")
    expect(names(("a", "/s/x/b", check), ("a", "/s/y/b", check), ("a", "/s/x/b", check)),
           ["make check (in x/b)", "make check (in y/b)", "make check (in x/b) #2"], "folders")
    on_two = [("a", "/home/a/s", check), ("b", "/builds/7/s", check)]
    expect(names(*on_two), ["make check", "make check #2"], "machines")
    expect(names(*on_two, argv=("--no-machines",)), ["make check", "make check #2"], "machines that have no names")
    tests = [("a", f"{folder}/build", [f"{folder}/build/{name}"]) for name in ("one", "two")]
    expect(names(*tests), ["build/one", "build/two"], "programs below the current folder")
    odd = [*check, "#2"]
    expect(len(set(names(("a", "/s", check), ("a", "/s", odd), ("a", "/s", check)))), 3, "a name that is like another")


@report_test
def code_quality(folder: str) -> None:
    one_trace(folder)
    report(folder, "--trace", "a.trace", "--json", "a.jsonl")
    with open(f"{folder}/a.jsonl", encoding="utf-8") as file:
        lines = file.readlines()
    moved = json.loads(lines[-1])
    moved["block"]["address"] = moved["address"] = moved["bad"] = "3000"
    for frame in (*moved["stack"], *moved["freed"]):
        frame["line"] += 1
    with open(f"{folder}/b.jsonl", "w", encoding="utf-8") as file:
        file.writelines([*lines, json.dumps(moved) + "\n"])
    entries = json.loads(report(folder, "b.jsonl", "--codequality", "-").out)
    expect(len(entries), 3, "entries")
    expect(len({entry["fingerprint"] for entry in entries}), 3, "fingerprints")
    expect(entries[1]["location"], {"path": "program.c", "lines": {"begin": 7}}, "location")
    expect({entry["severity"] for entry in entries}, {"critical"}, "severity")


class Links(html.parser.HTMLParser):
    """What elements a page has, and where they lead."""

    def __init__(self) -> None:
        super().__init__()
        self.links: List[str] = []
        self.seen: Set[str] = set()

    def handle_starttag(self, tag: str, attrs: List[Tuple[str, Optional[str]]]) -> None:
        self.seen.add(tag)
        self.links += [value or "" for name, value in attrs if name in ("src", "href", "action", "data", "onerror")]


@report_test
def page_is_safe(folder: str) -> None:
    odd = '1000-9000 r-xp 0 0:0 1 /tmp/</script><!--NOTES--><img src="http://x/" onerror=alert(1)>\n'
    write_trace(folder, "a.trace", FREED + END, side(odd, [], [fault(0x2000)], [0, 0, 0, 0, 1], argv=["</script><b>"]))
    report(folder, "--trace", "a.trace", "--html", "out.html")
    with open(f"{folder}/out.html", encoding="utf-8") as file:
        text = file.read()
    expect(text.count("</script>"), 2, "ends of scripts")
    expect(len(re.findall("script-src 'sha256-[^' ]{44}' 'sha256-[^' ]{44}';", text)), 1, "scripts that may run")
    expect_in(text, "&lt;/script&gt;&lt;!--NOTES--&gt;&lt;img")
    expect_not_in(text, "@import", "url(")
    reader = Links()
    reader.feed(text)
    expect([link for link in reader.links if not re.fullmatch("#[0-9a-f]{16}", link)], ["data:,"], "links out of it")
    expect(reader.seen & {"img", "b", "iframe", "base"}, {"b"}, "elements")


@report_test
def page_works(folder: str) -> None:
    tool = browser.find()
    if tool is None:
        leave_out("page_works: Chromium is not there")
        return
    one_trace(folder)
    write_trace(folder, "b.trace", "p0 end no-close events 20 offset 9 reports 0\n", side(process=3, ending=2))
    report(folder, "--trace", "a.trace", "b.trace", "--html", "out.html", "--source-root", ".")
    seen = browser.look(tool, folder, "out.html")
    expect(seen, browser.WANTED, "the page")


@report_test
def outputs_are_whole(folder: str) -> None:
    one_trace(folder)
    first = report(folder, "--trace", "a.trace", "--json", "a.jsonl")
    for name in FORMS:
        ran = report(folder, "a.jsonl", f"--{name}", "/dev/full")
        expect((ran.status, ran.out), (4, first.out), name)
        expect(ran.err, "asancol-report: /dev/full: No space left on device\n", name)
        ran = report(folder, "a.jsonl", f"--{name}", "/proc/none/file")
        expect((ran.status, ran.err), (4, "asancol-report: /proc/none/file: No such file or directory\n"), name)
        ran = report(folder, "a.jsonl", f"--{name}", "missing/folders/file")
        expect((ran.status, ran.err, os.listdir(f"{folder}/missing/folders")), (first.status, "", ["file"]), name)
        shutil.rmtree(f"{folder}/missing")
    before = set(os.listdir(folder))
    with open(f"{folder}/real", "w", encoding="utf-8") as file:
        file.write("old")
    os.symlink("real", f"{folder}/link")
    report(folder, "a.jsonl", "--json", "link")
    expect(set(os.listdir(folder)) - before, {"real", "link"}, "files")
    expect(os.readlink(f"{folder}/link"), "real", "a link stays")
    with open(f"{folder}/real", "rb") as one, open(f"{folder}/a.jsonl", "rb") as other:
        expect(one.read(), other.read(), "through the link")
    with open("/dev/full", "wb") as full:
        filled = call([reports.REPORT, "a.jsonl"], cwd=folder, stdout=full, stderr=subprocess.PIPE,
                      check=False)
    expect((filled.returncode, filled.stderr), (4, b"asancol-report: standard output: No space left on device\n"),
           "the text")
