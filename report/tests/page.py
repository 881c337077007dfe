"""What a reader does with the page: filters it, goes over it by keys, copies, follows links, prints."""

import functools
import json
from typing import Any, Callable, Dict, List

import browser
from looks import Entry, finding, frame, process
from testing import LeftOut, expect, expect_in, expect_not_in
from testing.reports import one_trace, report, report_test

HEAPS = ("heap-use-after-free", "heap-buffer-overflow")
PLACES = 5


def place(folder: str, number: int) -> Entry:
    """A report whose callers, block, threads and modules no other one has."""
    def frames(name: str, line: int) -> List[Entry]:
        inner = frame(folder, f"{name}_{number}", line)
        outer = {**frame(folder, f"{name}_caller_{number}", line + 1), "file": f"{folder}/lib/{name}_{number}.c"}
        library = {"offset": "9", "module": f"/opt/lib/lib{name}_{number}.so.1"}
        return [inner, outer, library, frame(folder, "main", 90)]

    threads = {"thread": 3, "threads": [{"number": 3, "creator": 0, "name": f"worker_{number}",
                                         "created": frames("start", 70)}]}
    return finding(folder, number, **{"class": HEAPS[number % 2], "count": 1, "stack": frames("read", 10 * number + 1),
                                      "allocated": frames("make", 50), "freed": frames("drop", 60), **threads})


def write_result(folder: str, entries: List[Entry]) -> None:
    run = {"type": "run", "version": 1, "run": 0, "id": "a", "command": ["ctest", "-j2"], "host": "node-7",
           "directory": folder, "time": 1700000000, "seconds": 12.5, "status": 0}
    with open(f"{folder}/names.c", "w", encoding="utf-8") as file:
        file.writelines(f"    copy(to + {n}, from, length - {n});\n" for n in range(100))
    with open(f"{folder}/a.jsonl", "w", encoding="utf-8") as file:
        file.writelines(json.dumps(entry) + "\n" for entry in [run, process(0, reports=1), *entries])


def page_of(folder: str, *argv: str) -> str:
    """Writes a page, and returns its text."""
    report(folder, "a.jsonl", "--html", "a.html", *argv)
    with open(f"{folder}/a.html", encoding="utf-8") as file:
        return file.read()


class Reader:
    """Somebody who has a page open."""

    def __init__(self, tool: str, folder: str) -> None:
        self.browser = browser.Browser(tool, folder)
        self.path = f"{folder}/a.html"
        self.session = browser.open_page(self.browser, self.path)

    def see(self, script: str) -> Any:
        seen = self.browser.ask("Runtime.evaluate", self.session, expression=script, returnByValue=True,
                                awaitPromise=True).get("result", {})
        return seen.get("value", seen)

    def press(self, *keys: str) -> None:
        for key in keys:
            text = {"Enter": "\r"}.get(key, key if len(key) == 1 else "")
            for kind in ("keyDown", "keyUp"):
                self.browser.ask("Input.dispatchKeyEvent", self.session, type=kind, key=key,
                                 **({"text": text} if text and kind == "keyDown" else {}),
                                 **({"windowsVirtualKeyCode": 13} if key == "Enter" else {}),
                                 **({"windowsVirtualKeyCode": 9} if key == "Tab" else {}),
                                 **({"windowsVirtualKeyCode": 27} if key == "Escape" else {}))

    def reload(self, address: str = "") -> None:
        self.browser.events.clear()
        self.browser.ask("Page.navigate", self.session, url="about:blank")
        self.browser.wait("Page.loadEventFired")
        self.browser.events.clear()
        self.browser.ask("Page.navigate", self.session, url=f"file://{self.path}{address}")
        self.browser.wait("Page.loadEventFired")

    def filter(self, words: str) -> List[str]:
        """Returns the names of the reports that match."""
        return self.see(f"""(() => {{
            const words = document.getElementById("words");
            words.value = {json.dumps(words)};
            words.dispatchEvent(new Event("input"));
            return [...document.querySelectorAll(".card")].filter(it => it.checkVisibility()).map(it => it.id);
        }})()""")

    def opened(self) -> str:
        """Returns a digit for each report: 1 if it is open."""
        return self.see('[...document.querySelectorAll(".card")].map(it => Number(it.open)).join("")')

    def focused(self) -> int:
        """Returns which report has the focus, from 0; -1: none."""
        return self.see('[...document.querySelectorAll(".card > summary")].indexOf(document.activeElement)')

    def troubles(self) -> List[Dict[str, Any]]:
        return [it for it in self.browser.events if it["method"] in ("Runtime.exceptionThrown", "Log.entryAdded")]


def reader_test(function: Callable[[Reader, str], None]) -> Callable[..., None]:
    """Says that a function is a test of an open page with some reports."""
    @functools.wraps(function)
    def run(folder: str) -> None:
        tool = browser.find()
        if tool is None:
            raise LeftOut("Chromium is not there")
        write_result(folder, [place(folder, number) for number in range(1, PLACES + 1)])
        page_of(folder, "--source-root", ".")
        reader = Reader(tool, folder)
        try:
            function(reader, folder)
            expect(reader.troubles(), [], "troubles")
        finally:
            reader.browser.close()

    return report_test(run)


def name(number: int) -> str:
    return f"{number:016x}"


@reader_test
def filter_sees_all_frames(reader: Reader, folder: str) -> None:
    """A caller, whoever made or freed the block or started the thread, their files and modules find a report."""
    for words in ("read_2", "read_caller_2", "make_2", "MAKE_caller_2", "drop_caller_2", "start_caller_2",
                  "lib/make_2.c", "libdrop_2.so", "worker_2", "heap-use main read_2"):
        expect(reader.filter(words), [name(2)], words)
    expect(reader.filter("heap-use-after-free"), [name(2), name(4)], "a class")
    expect(reader.filter("main"), [name(it) for it in range(1, PLACES + 1)], "what all have")
    expect(reader.filter("nowhere"), [], "nothing")


@reader_test
def keys_go_over_the_page(reader: Reader, folder: str) -> None:
    expect((reader.opened(), reader.focused()), ("10000", -1), "at first")
    reader.press("j", "j", "j", "Enter")
    expect((reader.opened(), reader.focused()), ("10100", 2), "opened")
    reader.press("Enter", "k")
    expect((reader.opened(), reader.focused()), ("10000", 1), "closed, and back")
    reader.press("k", "k", "k")
    expect(reader.focused(), 0, "not before the first")
    reader.press("o")
    expect(reader.opened(), "11111", "all")
    reader.press("c")
    expect(reader.opened(), "00000", "none")
    reader.press(*"jjjjjjj")
    expect(reader.focused(), 4, "not past the last")
    expect(reader.see("getComputedStyle(document.activeElement).outlineStyle"), "solid", "the focus is seen")
    reader.press("?")
    expect(reader.see('document.getElementById("keys").open'), True, "the list of keys")
    reader.press("j", "Escape")
    expect((reader.see('document.getElementById("keys").open'), reader.focused()), (False, 4), "closed")


@reader_test
def who_types_presses_no_keys(reader: Reader, folder: str) -> None:
    reader.press("/", *"jo?k/c")
    expect(reader.see('document.getElementById("words").value'), "jo?k/c", "the filter")
    expect(reader.opened(), "10000", "nothing opens")
    expect(reader.see('document.getElementById("keys").open'), False, "the list of keys")
    reader.press("Escape")
    expect(reader.filter("after-free"), [name(2), name(4)], "a class")
    reader.press("j", "j")
    expect(reader.focused(), 3, "what the filter hides is passed over")


@reader_test
def tab_stops_at_one_report(reader: Reader, folder: str) -> None:
    """With thousands of reports nobody comes past them otherwise."""
    stops = '[...document.querySelectorAll(".card > summary")].map(it => Number(it.tabIndex === 0)).join("")'
    expect(reader.see(stops), "10000", "at first")
    reader.press("j", "j")
    expect(reader.see(stops), "01000", "the current one")
    reader.filter("read_5")
    expect(reader.see(stops), "00001", "the one that is shown")
    for number, wanted in (("open-all", "10001"), ("close-all", "10000")):
        reader.see(f'document.getElementById("{number}").click()')
        expect(reader.opened(), wanted, f"{number}, of those shown")


@reader_test
def reports_are_copied(reader: Reader, folder: str) -> None:
    """With the clipboard, and without it, as in a page that a server has without encryption."""
    text = report(folder, "a.jsonl", "--gen-suppressions", "--source-root", ".").out
    reports = [it for it in text.split("\n\n") if "ERROR: asancol" in it]
    first, _, suppression = reports[0].partition("\n  suppression: ")
    clipboard = "navigator.clipboard.writeText = async text => { copied.push(text); };"
    selection = ("navigator.clipboard.writeText = async () => { throw new Error(); };"
                 "document.execCommand = () => copied.push(document.activeElement.value) > 0;")
    for how in (clipboard, selection):
        seen = reader.see(f"""(async () => {{
            window.copied = [];
            {how}
            const buttons = [...document.querySelector(".card").querySelectorAll(".copies button")];
            const names = buttons.map(it => it.textContent);
            for (const button of buttons) button.click();
            await new Promise(done => setTimeout(done, 100));
            return [names, copied, buttons.map(it => it.textContent)];
        }})()""")
        reader.reload()
        address = f"file://{folder}/a.html#{name(1)}"
        expect(seen, [["Copy report", "Copy suppression", "Copy link"], [first, suppression, address], ["Copied"] * 3],
               how)


@reader_test
def an_address_opens_a_report(reader: Reader, folder: str) -> None:
    """Also one of a page of an earlier release, which had the line of the place."""
    for address in (f"#{name(3)}", f"#{name(3)}-31"):
        reader.reload(address)
        expect(reader.opened(), "00100", address)
    reader.filter("read_1")
    expect(reader.see(f'document.querySelector("[id=\\"{name(3)}\\"] .foot a").textContent'), f"#{name(3)}", "shown")
    reader.see(f'location.hash = "{name(4)}"; new Promise(done => setTimeout(done, 100))')
    expect(reader.opened(), "00110", "while the filter hides it")
    expect(reader.see(f'document.getElementById("{name(4)}").checkVisibility()'), True, "it is shown")
    reader.reload("#0123")
    expect(reader.opened(), "10000", "a place that is gone")


@reader_test
def all_is_printed(reader: Reader, folder: str) -> None:
    """Open, light, and with nothing cut off; and then as before."""
    reader.see('document.getElementById("theme").click(); document.getElementById("theme").click()')
    features = [{"name": "prefers-color-scheme", "value": "dark"}]
    reader.browser.ask("Emulation.setEmulatedMedia", reader.session, media="print", features=features)
    reader.see('dispatchEvent(new Event("beforeprint"))')
    expect(reader.opened(), "11111", "in print")
    cut = reader.see("""[...document.querySelectorAll("main *")].filter(it => it.checkVisibility() &&
        it.scrollWidth > it.clientWidth + 1 && !["visible", "clip"].includes(getComputedStyle(it).overflowX)).length""")
    expect(cut, 0, "elements that are cut")
    colors = reader.see('["backgroundColor", "color"].map(it => getComputedStyle(document.body)[it])')
    expect(colors, ["rgb(255, 255, 255)", "rgb(27, 35, 48)"], "colors")
    expect(reader.see('document.querySelector(".tools").checkVisibility()'), False, "tools")
    reader.see('dispatchEvent(new Event("afterprint"))')
    expect(reader.opened(), "10000", "after it")


@reader_test
def theme_is_kept(reader: Reader, folder: str) -> None:
    color = "getComputedStyle(document.body).backgroundColor"
    light = reader.see(color)
    reader.see('document.getElementById("theme").click()')
    dark = reader.see(color)
    reader.reload()
    expect((light != dark, reader.see(color)), (True, dark), "after a reload")


@report_test
def page_says_things_once(folder: str) -> None:
    """The title of the window has the summary, and the heading the command."""
    write_result(folder, [place(folder, 1)])
    text = page_of(folder)
    expect_in(text, "<title>asancol: 1 report at 1 place; 1 process, 1234567 events; all complete</title>",
              "<h1>ctest -j2</h1>")


@report_test
def frames_lead_to_sources(folder: str) -> None:
    one_trace(folder)
    report(folder, "--trace", "a.trace", "--json", "a.jsonl")
    expect_not_in(page_of(folder), "<a href=\"http")
    forge = "https://git.example.com/blob/main/{file}?a=1&b=%20#L{line}"
    expect_in(page_of(folder, "--source-url", forge),
              '<a href="https://git.example.com/blob/main/program.c?a=1&amp;b=%20#L7">program.c:7')
    expect_in(page_of(folder, "--source-url", "vscode://file{path}:{line}:{column}"),
              f'<a href="vscode://file{folder}/program.c:7:')
    above, own = folder.rsplit("/", 1)
    page = page_of(folder, "--source-root", above, "--source-url", "x:{file}")
    expect_in(page, f'<a href="x:{own}/program.c"')
    page = page_of(folder, "--source-root", "/usr", "--source-url", forge)
    expect_not_in(page, "git.example.com")


@report_test
def odd_paths_in_addresses(folder: str) -> None:
    """Whatever a file is called, its address is one. A relative path of the system's libraries is none from here."""
    odd = {**frame(folder, "f", 5), "file": f"{folder}/a b/\"><script>?#%+&é.c", "column": 0}
    system = {**frame(folder, "f", 6), "file": "nptl/pthread_create.c", "module": "/lib/x86_64-linux-gnu/libc.so.6"}
    write_result(folder, [finding(folder, 1, stack=[odd, system], allocated=[])])
    page = page_of(folder, "--source-url", "https://x/{file}#{line}:{column}")
    expect_in(page, '<a href="https://x/a%20b/%22%3E%3Cscript%3E%3F%23%25%2B%26%C3%A9.c#5:1">')
    expect_not_in(page, "https://x/nptl")
    expect_in(page_of(folder, "--source-url", "https://x/?at={path}"), f"https://x/?at={folder}/a%20b/%22%3E")


REFUSED = {
    "{file}": "has no scheme: begin it with one, such as https: or vscode:",
    "//x/{file}": "has no scheme",
    "7up:{file}": "has no scheme",
    "javascript:{file}": "would run what is in it: begin it with another scheme, such as https:",
    "JavaScript:{file}": "would run what is in it",
    "data:text/html,{file}": "would run what is in it",
    "https://x/{line}": "does not say which file: write {file} or {path} where its path is to stand",
    "https://x/{file}{lines}": "has a brace of no mark: the marks are {file}, {path}, {line} and {column}",
    "https://x/{file}}": "has a brace of no mark",
    "https://x/a b/{file}": "has a blank, or a character that is not ASCII",
    "https://x/ä/{file}": "has a blank, or a character that is not ASCII",
}


@report_test
def addresses_are_refused(folder: str) -> None:
    """The message has the value, the mistake and the remedy."""
    write_result(folder, [])
    for template, text in REFUSED.items():
        ran = report(folder, "a.jsonl", "--source-url", template, "--html", "b.html")
        expect(ran.status, 2, template)
        expect_in(ran.err, f"asancol-report: --source-url: '{template}' {text}")
