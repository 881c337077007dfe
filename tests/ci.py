"""docs/CI.md: each block of the page is run as it stands, with installed programs, in a new copy of the project of
examples/farms, as a job would do it: without a terminal, and with nothing prepared.

A block is named by the section that it is in, its language, and its number among those.
"""

import glob
import importlib
import json
import os
import re
import shutil
import subprocess
import xml.etree.ElementTree
from typing import Callable, Dict, List, NamedTuple, Tuple

from testing import TOP, Failure, Later, LeftOut, Ran, Suite, expect, expect_in, write_text
from testing.programs import PATIENCE, call, environment, ran_of

PAGE = f"{TOP}/docs/CI.md"
PROJECT = f"{TOP}/examples/farms/project"
SHORT = "The job in short: sh"

# Where the two bugs of the project are.
BUGS = {("words.c", "BUG of join"), ("child.c", "BUG of child")}


def text_of(path: str) -> str:
    with open(path, encoding="utf-8") as file:
        return file.read()


def blocks() -> Dict[str, str]:
    """Returns the blocks of the page by their names, such as `GitHub Actions: yaml 1`."""
    found: Dict[str, str] = {}
    heading = ""
    for title, language, text in re.findall(r"^##+ ([^\n]*)$|^```(\w+)\n(.*?)^```$", text_of(PAGE), re.M | re.S):
        if title:
            heading = title
            continue
        number = sum(it.startswith(f"{heading}: {language} ") for it in found) + 1
        found[f"{heading}: {language} {number}"] = text
    return found


def places() -> List[Tuple[str, int]]:
    """Returns the file and the line of each bug."""
    return sorted((file, number) for file, words in BUGS
                  for number, line in enumerate(text_of(f"{PROJECT}/{file}").splitlines(), 1) if words in line)


class Job:
    """A copy of a project, in which commands run as in CI."""

    def __init__(self, folder: str, prefix: str, source: str = PROJECT) -> None:
        self.folder = f"{folder}/project"
        shutil.copytree(source, self.folder, symlinks=True)
        path = f"{prefix}/bin:{os.environ.get('PATH', os.defpath)}"
        self.settings = {"PATH": path, "CI": "true", "HOME": f"{folder}/home", "ASANCOL_RUN": ""}
        self.patience = PATIENCE
        os.makedirs(self.settings["HOME"])
        if not shutil.which("pytest") and shutil.which("pytest-3"):
            os.makedirs(f"{folder}/bin")
            os.symlink(shutil.which("pytest-3") or "", f"{folder}/bin/pytest")
            self.settings["PATH"] = f"{path}:{folder}/bin"

    def run(self, script: str, *shell: str, **settings: str) -> Ran:
        """Runs a script of sh, or of another shell, at the top of the project."""
        compilers = [it for it in ("CC", "CXX", "CFLAGS", "CXXFLAGS") if it not in settings]
        argv = [*(shell or ("sh",)), "-c", script]
        return ran_of(call(argv, cwd=self.folder, env=environment(*compilers, **{**self.settings, **settings}),
                           stdin=subprocess.DEVNULL, capture_output=True, timeout=self.patience))

    def must(self, script: str, *shell: str, **settings: str) -> Ran:
        ran = self.run(script, *shell, **settings)
        if ran.status:
            raise Failure(f"{script}: status {ran.status}: {ran.out[-1500:]}{ran.err[-1500:]}")
        return ran

    def build(self) -> None:
        """The first two lines of the page."""
        self.must("".join(blocks()[f"{SHORT} 1"].splitlines(True)[:2]), "sh", "-e")

    def edit(self, file: str, old: str, new: str) -> None:
        text = text_of(f"{self.folder}/{file}")
        expect_in(text, old)
        write_text(f"{self.folder}/{file}", text.replace(old, new))

    def leave_out_wait(self) -> None:
        """Where no time limit ends the test that never ends."""
        self.edit("CMakeLists.txt", "split join child wait)", "split join child)")
        self.edit("CMakeLists.txt", "set_tests_properties(wait PROPERTIES TIMEOUT 2)", "")

    def text(self, file: str) -> str:
        return text_of(f"{self.folder}/{file}")

    def expect_page(self, file: str = "report.html") -> None:
        """The HTML page has both bugs."""
        expect_in(self.text(file), *(f"{it}:{line}" for it, line in places()))

    def expect_junit(self, file: str = "junit.xml") -> None:
        """JUnit has a test case for each program, and those with a bug have failed."""
        cases = {os.path.basename(it.attrib["name"]): it
                 for it in xml.etree.ElementTree.parse(f"{self.folder}/{file}").iter("testcase")}
        failed = {name for name, it in cases.items() if it.find("failure") is not None}
        expect((failed & {"split", "join", "child"}, "split" in cases), ({"join", "child"}, True), sorted(cases))


def of_ctest(out: str) -> Dict[str, str]:
    """What ctest prints of each test."""
    return dict(re.findall(r"^ *\d+/\d+ \w+ +#\d+: (\w+) \.+.*?(Passed|Failed|Timeout|Exception)", out, re.M))


BY_CTEST = {"split": "Passed", "join": "Failed", "child": "Failed", "wait": "Timeout", "vendor": "Passed"}
UNCHECKED = "not checked: 1 program: build-asancol/vendor (not built with asancol-cc)"


def expect_places(text: str, before: str = "") -> None:
    expect_in(text, *(f"{before}{it}:{line}:" for it, line in places()))


# ---- the tests

def check_short(job: Job) -> None:
    """The tests with a bug fail by themselves, and show it; one run has all, and what no test shows."""
    ran = job.run(blocks()[f"{SHORT} 1"], "sh", "-e")
    expect((ran.status, of_ctest(ran.out)), (8, BY_CTEST), ran.out + ran.err)
    expect_places(ran.out, f"{job.folder}/")
    ran = job.run(blocks()[f"{SHORT} 2"])
    expect((ran.status, of_ctest(ran.out)["join"]), (99, "Passed"), ran.out + ran.err)
    expect_in(ran.err, "asancol: 2 reports at 2 places; 5 processes, ", UNCHECKED)
    expect_places(ran.err)
    job.expect_page()


def pairs(text: str, form: str = r"(\w+): ([^,]+)") -> Dict[str, str]:
    """The settings of a job."""
    return dict(re.findall(form, text))


class Step(NamedTuple):
    name: str
    kind: str  # `run` or `uses`
    body: str
    rest: str  # its other lines


STEP = re.compile(r"^    - (?:name: (?P<name>.*)\n      )?(?P<kind>run|uses): (?P<body>\|\n(?: {8}.*\n)+|.*\n)"
                  r"(?P<rest>(?: {6}.*\n)*)", re.M)


def steps_of_github(workflow: str) -> List[Step]:
    found = [Step(it["name"] or it["body"].strip(), it["kind"], re.sub(r"^\|\n|^ {8}", "", it["body"], flags=re.M),
                  it["rest"]) for it in STEP.finditer(workflow)]
    expect(len(found), len(re.findall(r"^    - ", workflow, re.M)), "steps")
    return found


def check_is_yaml(text: str, wanted: List[str], *keys: str) -> None:
    """If a reader of YAML is here, it reads the same commands."""
    try:
        at = importlib.import_module("yaml").safe_load(text)
    except ImportError:
        return
    for key in keys:
        at = at[key]
    expect([it["run"] if isinstance(it, dict) else it for it in at if isinstance(it, str) or "run" in it],
           [it if it.count("\n") > 1 else it.rstrip("\n") for it in wanted], "commands")


def run_github(job: Job) -> Tuple[Dict[str, Ran], str]:
    """Runs the steps of the workflow except those of others and of installing, until one fails. Returns what they
    printed, and the job's summary."""
    workflow = blocks()["GitHub Actions: yaml 1"]
    steps = steps_of_github(workflow)
    check_is_yaml(workflow, [it.body for it in steps if it.kind == "run"], "jobs", "asancol", "steps")
    env = re.search(r"^    env: \{(.*)\}$", workflow, re.M)
    settings = pairs(env[1] if env else "")
    summary = f"{job.settings['HOME']}/summary"
    write_text(summary, "")
    said: Dict[str, Ran] = {}
    for step in steps:
        is_stopped = any(it.status for it in said.values()) and "if: always()" not in step.rest
        if step.kind == "run" and step.name != "Install" and not is_stopped:
            said[step.name] = job.run(step.body, "bash", "-e", GITHUB_STEP_SUMMARY=summary, GITHUB_ACTIONS="true",
                                      **settings)
    for path in re.findall(r"(?:sarif_file|path): ([\w/.]+)", "".join(it.rest for it in steps)):
        expect(os.path.exists(f"{job.folder}/{path}"), True, path)
    return said, text_of(summary)


def annotations(text: str) -> List[Tuple[str, int]]:
    return sorted((file, int(line)) for file, line in re.findall(r"^::error file=(.*?),line=(\d+),", text, re.M))


def check_github(job: Job) -> None:
    """The job is red, each bug is an annotation, the summary has them, and so has each file; and objects are cached."""
    said, summary = run_github(job)
    expect([(name, it.status) for name, it in said.items()], [("Build", 0), ("Test", 99)], said)
    expect(annotations(said["Test"].err), places(), said["Test"].err)
    expect_in(summary, "### asancol: 2 reports at 2 places; ", "not checked: 1 program: build/vendor")
    expect_places(summary)
    sarif = json.loads(job.text("asancol/report.sarif"))["runs"][0]
    expect((len(sarif["results"]), sarif["automationDetails"]["id"]), (2, "gcc/"), "SARIF")
    job.expect_page("asancol/report.html")
    expect('"type":"finding"' in job.text("asancol/result.jsonl"), True, "JSON lines")
    shutil.rmtree(f"{job.folder}/build")
    said, _ = run_github(job)
    hits = re.search(r"Hits: +(\d+)", job.run("ccache -s").out)
    expect((int(hits[1]) if hits else 0) > 4, True, "hits of ccache")
    expect(annotations(said["Test"].err), places(), "of cached objects")


def check_gitlab(job: Job) -> None:
    """The job is red, JUnit has the tests with bugs, and Code Quality has both."""
    text = blocks()["GitLab: yaml 1"]
    script = re.search(r"^  script:\n((?:  - .*\n)+)", text, re.M)
    commands = re.findall(r"^  - (.*)$", script[1] if script else "", re.M)
    check_is_yaml(text, commands, "asancol", "script")
    variables = re.search(r"^  variables: \{(.*)\}$", text, re.M)
    settings = pairs(variables[1] if variables else "")
    expect([job.run(it, "bash", "-e", **settings).status for it in commands], [0, 99], "statuses")
    job.expect_junit()
    job.expect_page()
    quality = json.loads(job.text("quality.json"))
    found = sorted((it["location"]["path"], it["location"]["lines"]["begin"]) for it in quality)
    expect(found, places(), "Code Quality")


def check_jenkins(job: Job) -> None:
    """The job is red, and JUnit has the tests with bugs."""
    text = blocks()["Jenkins: groovy 1"]
    settings = pairs(text, r"(\w+) = '(.*?)'")
    commands = re.findall(r"sh '(.*)'$", text, re.M)
    expect([job.run(it, "sh", "-xe", **settings).status for it in commands], [0, 99], "statuses")
    job.expect_junit()
    job.expect_page()
    expect(text.count("{"), text.count("}"), "braces")


def check_presets(job: Job) -> None:
    write_text(f"{job.folder}/CMakePresets.json", blocks()["Build systems: json 1"])
    ran = job.run(blocks()["Build systems: sh 1"])
    expect((ran.status, of_ctest(ran.out)), (8, BY_CTEST), ran.out + ran.err)
    expect_places(ran.out, f"{job.folder}/")


def check_cdash(job: Job) -> None:
    """The table of defects has each class, also in a project that does not think of CDash."""
    job.edit("CMakeLists.txt", "include(CTest)", "enable_testing()")
    job.build()
    ran = job.run(blocks()["Build systems: sh 2"])
    expect_in(ran.out, "heap-buffer-overflow - 1\n", "heap-use-after-free - 1\n")
    expect(ran.status != 0, True, "status")


def check_meson(job: Job) -> None:
    """The tests with a bug fail, with and without a setup of the page, which leaves results."""
    job.edit("meson.build", "timeout: 2)\n", f"timeout: 2)\n{blocks()['A result of each test: meson 1']}")
    ran = job.run(blocks()["Build systems: sh 3"])
    wanted = {"split": "OK", "join": "ERROR", "child": "ERROR", "wait": "TIMEOUT", "vendor": "OK"}
    form = r"^ *\d+/\d+ (\w+) +(\w+)"
    expect((ran.status != 0, dict(re.findall(form, ran.out, re.M))), (True, wanted), ran.out + ran.err)
    setup = re.search(r"`(meson test .*?)`", text_of(PAGE))
    ran = job.run(setup[1] if setup else "")
    expect(dict(re.findall(form, ran.out, re.M)), wanted, ran.out + ran.err)
    expect_places(job.run("asancol-report build-asancol/results").out)


def check_automake(job: Job) -> None:
    """The tests with a bug are errors. The one without an end is left out, since nothing ends it."""
    job.edit("Makefile.am", "split join child wait", "split join child")
    job.edit("Makefile.am", "wait_SOURCES = wait.c\n", "")
    ran = job.run(blocks()["Build systems: sh 4"])
    wanted = {"split": "PASS", "join": "ERROR", "child": "ERROR", "vendor": "PASS"}
    expect((ran.status != 0, dict((name, it) for it, name in re.findall(r"^([A-Z]+): (\w+)$", ran.out, re.M))),
           (True, wanted), ran.out + ran.err)
    expect_places(job.text("join.log") + job.text("child.log"))
    ran = job.run("asancol-run -- make check")
    expect_in(ran.err, "asancol: 2 reports at 2 places; ")


def check_pytest(job: Job) -> None:
    """The tests with a bug fail, and a run around them has the bugs."""
    job.must("make -f simple.mk")
    alone, around = re.findall(r"`((?:asancol-run -- )?pytest)`", text_of(PAGE))
    ran = job.run(f"{alone} test_programs.py")
    failed = re.findall(r"^FAILED test_programs\.py::test_program\[(\w+)\]", ran.out, re.M)
    expect((ran.status, sorted(failed)), (1, ["child", "join", "wait"]), ran.out + ran.err)
    ran = job.run(f"{around} test_programs.py")
    expect(ran.status, 99, ran.out + ran.err)
    expect_places(ran.err)


def check_results(job: Job) -> None:
    """Each test has its own verdict and its file, and there is one report."""
    job.build()
    ran = job.run(blocks()["A result of each test: sh 1"], "sh", "-e")
    expect((ran.status, of_ctest(ran.out)), (1, BY_CTEST), ran.out + ran.err)
    expect(len(glob.glob(f"{job.folder}/results/*.jsonl")), 3, "results, but not of what ctest has killed")
    expect_places(ran.out)
    job.expect_page()
    job.expect_junit()
    ran = job.run("asancol-report --format=github --markdown summary.md --sarif asancol.sarif results")
    expect((ran.status, annotations(ran.out)), (1, places()), ran.out)
    expect_places(job.text("summary.md"))
    expect(len(json.loads(job.text("asancol.sarif"))["runs"][0]["results"]), 2, "SARIF")


def check_known(job: Job) -> None:
    """Known bugs leave the status to ctest, also in another folder, and a new one does not."""
    job.leave_out_wait()
    job.build()
    make, use = blocks()["Known bugs and flaky tests: sh 1"].splitlines()
    expect((job.run(make).status, job.run(use).status), (99, 0), "statuses")
    shutil.rmtree(f"{job.folder}/build-asancol")
    os.rename(job.folder, f"{job.folder}-moved")
    job.folder += "-moved"
    job.build()
    expect(job.run(use).status, 0, "in another folder")
    job.edit("split.cpp", "words_free(list);", "words_free(list); words_free(list);")
    job.must("cmake --build build-asancol")
    expect(job.run(use).status, 99, "with a new bug")
    job.edit("split.cpp", "words_free(list); words_free(list);", "words_free(list);")
    job.edit("child.c", "words_free(list);", "")
    job.must("cmake --build build-asancol")
    expect_in(job.run(use).err, "asancol: 1 place of the baseline not seen in this run")


def check_flaky(job: Job) -> None:
    """What came up in some of the runs is said to be so."""
    job.leave_out_wait()
    job.edit("child.c", "words_free(list);", 'if (getenv("try")[0] == \'2\') words_free(list);')
    job.build()
    script = blocks()["Known bugs and flaky tests: sh 2"]
    ran = job.run(f"export try\n{script}")
    said = re.findall(r"`(seen in 1 of 3 runs)`", text_of(PAGE))
    expect((ran.status, ran.out.count("seen in 3 runs"), ran.out.count(said[0])), (1, 1, 1), ran.out + ran.err)


# ---- what makes the job red

RED = {
    "error": "char *p = malloc(8); p[8] = 1; free(p); return 0;",
    "leak": "return malloc(8) == 0;",
    "crash": "abort();",
    "fine": "free(malloc(8)); return 0;",
    "hang": "for (;;) pause();",
}
RED_CMAKE = """cmake_minimum_required(VERSION 3.10)
project(red C)
include(CTest)
foreach(name error leak crash fine hang)
    add_executable(${name} ${name}.c)
    add_test(NAME ${name} COMMAND ${name})
endforeach()
add_test(NAME slow COMMAND hang)
set_tests_properties(slow PROPERTIES TIMEOUT 1)
add_custom_target(plain ALL cc ${CMAKE_SOURCE_DIR}/fine.c -o plain)
add_test(NAME plain COMMAND "./plain")
add_test(NAME expected COMMAND error)
set_tests_properties(expected PROPERTIES WILL_FAIL TRUE)
add_test(NAME ignored COMMAND sh -c "./error; ./leak; true")
add_test(NAME unfinished COMMAND error)
set_tests_properties(unfinished PROPERTIES ENVIRONMENT "ASANCOL_LIMIT=1;ASANCOL_SEGMENTS=0")
"""


class Row(NamedTuple):
    """How a row of the table comes about."""

    tests: str  # a pattern of their names
    options: str = ""  # of asancol-run, in both columns
    ctest: str = ""  # options of ctest
    path: str = ""  # another PATH, relative to the project


ROWS = [
    Row("error|leak"),
    Row("expected|ignored"),
    Row("crash|slow"),
    Row("unfinished"),
    Row("fine", path="without"),
    Row("plain"),
    Row("plain|fine"),
    Row("fine"),
    Row("fine", "--no-such"),
    Row("hang", ctest="--timeout 1"),
    Row("leak", "--leaks=summary"),
    Row("error", "--baseline ../known.jsonl"),
]
# What a row asks for in its second column, besides what holds without it: options, and the status.
ASKED = {"`--unchecked=error`: 98": ("--unchecked=error", 98), "`--at-least N`: 98": ("--at-least 2", 98),
         "`--timeout`: 98, or 99 with a report": ("--timeout 1", 98)}
STATUSES = {"passes": 0, "ctest's status": 8, "its test fails": 8}


def red_project(folder: str, prefix: str) -> Job:
    os.makedirs(f"{folder}/red")
    for name, body in RED.items():
        write_text(f"{folder}/red/{name}.c",
                   f"#include <stdlib.h>\n#include <unistd.h>\nint main(void) {{ {body} }}\n")
    write_text(f"{folder}/red/CMakeLists.txt", RED_CMAKE)
    job = Job(folder, prefix, f"{folder}/red")
    job.build()
    job.run("asancol-run --json known.jsonl -- build-asancol/error")
    return job


def row_by_itself(job: Job, row: Row, cell: str) -> None:
    """The first column: ctest alone."""
    options = row.options.replace("../known", f"{job.folder}/known")
    missing = {"ASANCOL_RUN": f"{job.folder}/missing/asancol-run"} if row.path else {}
    ran = job.run(f"ctest --test-dir build-asancol -R '^({row.tests})$' {row.ctest}", ASANCOL_RUN_OPTIONS=options,
                  **missing)
    said = of_ctest(ran.out)
    expect((ran.status, len(said)), (STATUSES[cell.split(" with ")[0]], row.tests.count("|") + 1), ran.out + ran.err)


def row_in_a_run(job: Job, row: Row, cell: str) -> None:
    """The second column: one run around ctest."""
    usual, _, asked = ("", "", cell) if cell in ASKED else cell.partition("; ")
    usual, _, named = usual.partition(", ")
    ctest = f"ctest --test-dir build-asancol -R '^({row.tests})$'"
    options = row.options.replace("../", "")
    if row.path:
        settings = {"PATH": os.environ.get("PATH", os.defpath)}
        expect(f"{job.run(f'asancol-run -- {ctest}', **settings).status}", usual, "without asancol-run")
        return
    if usual:
        ran = job.run(f"asancol-run {options} -- {ctest}")
        expect(ran.status, STATUSES.get(usual) if usual in STATUSES else int(usual), ran.out + ran.err)
        if named:
            expect_in(ran.err, "not checked: 1 program: build-asancol/plain")
    if asked:
        option, status = ASKED[asked]
        ran = job.run(f"asancol-run {option} -- {ctest}")
        expect(ran.status, status, ran.out + ran.err)


def check_red(folder: str, prefix: str) -> None:
    """Each row of the table is so."""
    table = text_of(PAGE).split("<!-- red -->\n")[1].split("<!-- end")[0].splitlines()[2:]
    lines = [[it.strip() for it in line.strip("|").split("|")] for line in table]
    cells = [(title, *others) for titles, *others in lines for title in titles.split("; ")]
    expect(len(cells), len(ROWS), "rows")
    red = red_project(folder, prefix)
    for row, (title, alone, around) in zip(ROWS, cells):
        try:
            row_by_itself(red, row, alone)
            row_in_a_run(red, row, around)
        except (Failure, KeyError, ValueError) as error:
            raise Failure(f"{title}: {error!r}") from None
    check_generator(red)


def check_generator(job: Job) -> None:
    """A program with a bug that the build itself runs stops it, unless it is not checked."""
    write_text(f"{job.folder}/CMakeLists.txt", f"{job.text('CMakeLists.txt')}add_custom_target(made ALL leak)\n")
    expect(job.run("cmake --build build-asancol").status != 0, True, "a build that leaks")
    setting = re.search(r"passes with `(ASANCOL_RUN=0)`", text_of(PAGE))
    job.must(f"{setting[1] if setting else ''} cmake --build build-asancol")


# ---- other projects, and the image

def check_cjson(job: Job) -> None:
    """GitHub's job is green on cJSON, and red with a bug of which the annotation has the line."""
    said, _ = run_github(job)
    passed = re.findall(r"^100% tests passed, 0 tests failed out of (\d+)$", said["Test"].out, re.M)
    expect((said["Test"].status, len(passed)), (0, 1), said)
    old, new = "copy = (unsigned char*)hooks->allocate(length);", "copy = (unsigned char*)hooks->allocate(length - 1);"
    job.edit("cJSON.c", old, new)
    line = next(it for it, text in enumerate(job.text("cJSON.c").splitlines(), 1) if "memcpy(copy, string, len" in text)
    said, summary = run_github(job)
    expect((said["Test"].status, ("cJSON.c", line) in annotations(said["Test"].err)), (99, True), said["Test"].err)
    expect_in(summary, f"cJSON.c:{line}:")


def check_cjson_of_debian(suite: Suite, folder: str, prefix: str) -> None:
    real = importlib.import_module("real")
    program = [it for it in real.PROGRAMS if it.name == "cjson"]
    try:
        real.fetch(program)
    except (Failure, OSError) as error:
        raise LeftOut(f"no sources of cJSON: {error}") from None
    check_cjson(Job(folder, prefix, f"{real.SOURCES}/cjson"))


def check_docker(suite: Suite, folder: str, prefix: str) -> None:
    """The image is built, on a base that is made here, and a job in it finds the bugs."""
    if subprocess.run(["make", "-q", "asancol"], cwd=TOP, check=False, stderr=subprocess.DEVNULL).returncode:
        raise LeftOut("there is no ./asancol that is up to date")
    job = Job(folder, prefix)
    job.patience = 800
    os.makedirs(f"{job.folder}/ci")
    write_text(f"{job.folder}/Dockerfile", blocks()["How the job gets asancol: dockerfile 1"])
    buildah = f"buildah --root {folder}/images --runroot {folder}/now --storage-driver vfs"
    base = re.findall(r"^FROM (\S+)$", job.text("Dockerfile"), re.M)[0]
    write_text(f"{folder}/Base", "FROM scratch\nADD base.tar /\n")
    if job.run(f"mmdebstrap --variant=minbase bookworm {folder}/base.tar && "
               f"{buildah} bud --isolation chroot -t {base} -f {folder}/Base {folder}").status:
        raise LeftOut("no base for an image can be made here")
    job.must(f"{TOP}/packaging/deb.py {job.folder}/ci")
    job.must(f"{buildah} bud --isolation chroot --pull-never -t job .")
    script = blocks()[f"{SHORT} 1"] + blocks()[f"{SHORT} 2"]
    job.must(f"{buildah} from --name job job")
    ran = job.run(f"{buildah} run --isolation chroot -v {job.folder}:/src --workingdir /src job -- sh -c '{script}'")
    expect(ran.status, 99, ran.out + ran.err)
    expect_places(ran.out)
    job.expect_page()


class Tried(NamedTuple):
    """A test, and the blocks that it runs."""

    name: str
    check: Callable[[Job], None]
    blocks: Tuple[str, ...]
    tools: Tuple[str, ...] = ("cmake", "ctest")


BUILD, LATER = "Build systems: ", "A result of each test: "
TRIED = (
    Tried("in short", check_short, (f"{SHORT} 1", f"{SHORT} 2")),
    Tried("GitHub", check_github, ("GitHub Actions: yaml 1",), ("cmake", "ctest", "ccache", "bash")),
    Tried("GitLab", check_gitlab, ("GitLab: yaml 1",), ("cmake", "ctest", "bash")),
    Tried("Jenkins", check_jenkins, ("Jenkins: groovy 1",)),
    Tried("presets", check_presets, (f"{BUILD}json 1", f"{BUILD}sh 1")),
    Tried("CDash", check_cdash, (f"{BUILD}sh 2",)),
    Tried("meson", check_meson, (f"{BUILD}sh 3", f"{LATER}meson 1"), ("meson", "ninja")),
    Tried("automake", check_automake, (f"{BUILD}sh 4",), ("autoreconf", "automake")),
    Tried("pytest", check_pytest, (), ("pytest-3|pytest",)),
    Tried("results", check_results, (f"{LATER}sh 1",)),
    Tried("known bugs", check_known, ("Known bugs and flaky tests: sh 1",)),
    Tried("flaky tests", check_flaky, ("Known bugs and flaky tests: sh 2",)),
)
DOCKERFILE = "How the job gets asancol: dockerfile 1"


def expect_tools(tools: Tuple[str, ...]) -> None:
    for tool in tools:
        if not any(map(shutil.which, tool.split("|"))):
            raise LeftOut(f"{tool.split('|')[-1]} is not there")


def check_tried(suite: Suite, folder: str, prefix: str, tried: Tried) -> None:
    expect_tools(tried.tools)
    tried.check(Job(folder, prefix))


def check_with_tools(suite: Suite, folder: str, prefix: str, tools: Tuple[str, ...],
                     check: Callable[[Suite, str, str], None]) -> None:
    expect_tools(tools)
    check(suite, folder, prefix)


def check_table(suite: Suite, folder: str, prefix: str) -> None:
    check_red(folder, prefix)


def check_page(suite: Suite, folder: str) -> None:
    """Each block of the page is run by a test."""
    run = [it for tried in TRIED for it in tried.blocks]
    expect(sorted(blocks()), sorted([*run, DOCKERFILE]), "blocks")


def install(prefix: str, asancol: str) -> None:
    argv = ["make", "-s", "install-recorder", "install-run", f"PREFIX={prefix}"]
    made = ran_of(call(argv, cwd=TOP, env=environment("MAKE", "MFLAGS"), stdin=subprocess.DEVNULL, capture_output=True))
    expect(made.status, 0, made.err)
    shutil.copy(asancol, f"{prefix}/bin/asancol")


def add_tests(suite: Suite, folder: str, asancol: str) -> None:
    prefix = Later(f"{folder}/usr", install, f"{folder}/usr", asancol)
    suite.test("page: blocks for CI", check_page)
    for tried in TRIED:
        suite.test(f"CI: {tried.name}", check_tried, prefix, tried)
    for name, tools, check in (("what is red", ("cmake", "ctest"), check_table),
                               ("GitHub, cJSON", ("cmake", "ctest", "ccache", "bash"), check_cjson_of_debian)):
        suite.test(f"CI: {name}", check_with_tools, prefix, tools, check)
    suite.long_test("CI: Docker", check_with_tools, prefix, ("buildah", "mmdebstrap", "dpkg-shlibdeps"), check_docker)
