"""How the page looks, in a real browser: one report, many, crashes, nothing found, and incomplete runs."""

import html.parser
import json
import re
from typing import Any, Dict, List, Optional, Tuple

import browser
from asancol_report import classes
from asancol_report.class_names import BY_SHADOW, CLASSES as CLASSES_OF_REPORTS
from asancol_report.crashes import CRASH_CLASSES
from testing import expect, expect_in, expect_not_in, leave_out
from testing.reports import report, report_test

Entry = Dict[str, Any]
CLASSES = ("heap-buffer-overflow", "heap-use-after-free", "stack-buffer-overflow", "global-buffer-overflow")
SHADOWS = ("fa", "fd", "f2", "f9")
LONG = "std::__1::vector<std::__1::basic_string<char, std::__1::char_traits<char>, std::__1::allocator<char>>>::" \
       "__push_back_slow_path<std::__1::basic_string<char> const&>(std::__1::basic_string<char> const&)"


def frame(folder: str, function: str, line: int) -> Entry:
    return {"offset": "12ab", "module": f"{folder}/program", "function": function, "file": f"{folder}/names.c",
            "line": line, "column": 9}


def finding(folder: str, number: int, **more: Any) -> Entry:
    """A report in a row: every seventh is on the same block as one before it, and one has a long name."""
    kind = number % len(CLASSES)
    stack = [frame(folder, LONG if number == 5 else f"copy_name_{number}", number + 1), frame(folder, "main", 90)]
    block = {"kind": "heap", "address": f"{0x602000000000 + (0 if number % 7 == 0 else number << 8):x}", "size": 9}
    return {"type": "finding", "run": 0, "count": 1 + number * number, "processes": 1 + number % 3, "process": 0,
            "pid": 1000, "event": number + 1, "fingerprint": f"{number:016x}", "class": CLASSES[kind], "access": "load",
            "size": 4, "address": "602000000018", "bad": "602000000018", "shadow": SHADOWS[kind], "stack": stack,
            "block": block, "allocated": [frame(folder, "make", 80), frame(folder, "main", 90)], **more}


def process(number: int, **more: Any) -> Entry:
    return {"type": "process", "run": 0, "n": number, "pid": 1000 + number, "parent": 1, "fate": "closed", "why": "",
            "command": [f"./build/tests/test_{number}", "--gtest_filter=Parser.Handles*"], "events": 1234567,
            "reports": 0, "whole": True, "left_out": 0, **more}


def write_page(folder: str, name: str, entries: List[Entry], **more: Any) -> None:
    run = {"type": "run", "version": 1, "run": 0, "id": name, "command": ["ctest", "--output-on-failure", "-j2"],
           "host": "node-7", "directory": folder, "time": 1700000000, "seconds": 12.5, "status": 0, **more}
    with open(f"{folder}/{name}.jsonl", "w", encoding="utf-8") as file:
        file.writelines(json.dumps(entry) + "\n" for entry in [run, *entries])
    report(folder, f"{name}.jsonl", "--html", f"{name}.html")


def write_pages(folder: str) -> List[str]:
    with open(f"{folder}/names.c", "w", encoding="utf-8") as file:
        file.writelines(f"    if (length > {n}) copy(to + {n}, from, length - {n}); /* as long as some are */\n"
                        for n in range(300))
    died = {"signal": 11, "fate": "no-close", "why": "ended by SIGSEGV", "address": "10"}
    stack = [frame(folder, f"visit_{n}", 10 + n) for n in range(8)]
    variables = [{"offset": 32 + 64 * n, "size": 40, "name": f"name_{n}", "line": 9 + n} for n in range(3)]
    block = {"kind": "stack", "address": "602000000060", "size": 40, "name": "name_1", "frame": "602000000000",
             "function": frame(folder, "copy_name_1", 8), "variables": variables}
    rows = {"start": "601fffffff80", "shadow": "00" * 19 + "f8" + "00" * 28}
    write_page(folder, "one", [process(0, reports=1), finding(folder, 1, block=block, rows=rows)])
    write_page(folder, "many", [*(process(n) for n in range(30)), *(finding(folder, n) for n in range(200))], status=8)
    write_page(folder, "crash", [process(0, stack=stack, reports=1, **died), process(1, stack=stack[2:], **died),
                                 process(2, abrupt=True, signal=8, why="ended abruptly, by SIGFPE"),
                                 finding(folder, 1)])
    write_page(folder, "nothing", [process(n) for n in range(12)])
    limit = "reached the event limit: 21 of 30 events were not recorded"
    write_page(folder, "unseen", [process(0), process(1, whole=False, why=limit),
                                  process(2, abrupt=True, why="ended abruptly, by SIGKILL")], lost=1,
               troubles=["INCOMPLETE: 1 run inside this one left no result"], unchecked=["libold.so"])
    return ["one", "many", "crash", "nothing", "unseen"]


@report_test
def page_looks_well(folder: str) -> None:
    pages = write_pages(folder)
    tool = browser.find()
    if tool is None:
        leave_out("page_looks_well: Chromium is not there")
        return
    for picture in browser.pictures(tool, folder, pages):
        expect(picture.wrong, [], picture.name)
        expect(picture.size[1], 900, picture.name)
        expect(sum(picture.corner) < 150, picture.is_dark, f"{picture.name}: the page's color is {picture.corner}")
        expect(picture.colors > 40, True, f"{picture.name} shows nothing")


class TextOf(html.parser.HTMLParser):
    """The text of a page, without its script and its style."""

    def __init__(self, page: str) -> None:
        super().__init__()
        self.parts: List[str] = []
        self.inside = ""
        self.feed(page)
        self.text = "".join(self.parts)

    def handle_starttag(self, tag: str, attrs: List[Tuple[str, Optional[str]]]) -> None:
        self.inside = tag

    def handle_data(self, data: str) -> None:
        self.parts += [data] if self.inside not in ("script", "style") else []


@report_test
def page_has_words(folder: str) -> None:
    """Titles are those of the text, and a shadow byte is said in words."""
    freed = {"class": "double-free", "access": "free", "size": None, "bad": None}
    shadow = {"class": "stack-use-after-scope", "raw_class": "stack-buffer-overflow",
              "rows": {"start": "601fffffff80", "shadow": "00" * 19 + "f8" + "00" * 4}}
    write_page(folder, "a", [process(0), finding(folder, 0, shadow="03"), finding(folder, 1, **freed),
                             finding(folder, 2, **shadow), finding(folder, 3, shadow="e7")])
    said = report(folder, "a.jsonl").out
    with open(f"{folder}/a.html", encoding="utf-8") as file:
        page = TextOf(file.read()).text
    titles = re.findall(r"ERROR: asancol: (.*?)(?: \(\d+ times.*)?$", said, re.M)
    expect([title for title in titles if title not in page], [], f"titles of {said}")
    expect_in(page, said.splitlines()[-2].partition(": ")[2],
              "at 0x602000000018: only the first 3 of its 8 bytes may be accessed.",
              "at 0x602000000018: in a variable whose scope has ended.", "at 0x602000000018: its shadow byte is e7.")
    expect_in(page, "in copy_name_0 names.c:1:9", "Block allocated at")
    expect_not_in(page, f"{folder}/names.c:")
    write_pages(folder)
    with open(f"{folder}/one.html", encoding="utf-8") as file:
        expect_in(TextOf(file.read()).text, "This frame has 3 objects:", "[96, 136) 'name_1' (line 10) <== the access",
                  "Shadow bytes around the buggy address", "=>0x602000000000: 00 00 00[f8]")


@report_test
def each_class_has_advice(folder: str) -> None:
    """Whoever sees a class for the first time reads what it means, and what to look at."""
    default = classes.advice_for("a-class-of-a-later-release")
    for name in (*CLASSES_OF_REPORTS, *CRASH_CLASSES):
        expect(classes.what_is(name) != name and classes.advice_for(name) != default, True, name)
    expect(classes.what_is("a-class-of-a-later-release"), "a-class-of-a-later-release", "a new class")
    expect([byte for byte in BY_SHADOW if "shadow byte is" in classes.shadow_text(f"{byte:02x}")], [], "shadow bytes")
