"""Looks at a page in headless Chromium, over a pipe and without a driver. If ASANCOL_PICTURES names a folder, the
pictures that tests take are left there."""

import base64
import json
import os
import shutil
import struct
import subprocess
import zlib
from typing import Any, Dict, Iterator, List, NamedTuple, Optional, Tuple

from testing.programs import Started, killed_after

NAMES = ("chromium", "chromium-browser", "google-chrome")

# The questions to the page, one after the other.
SCRIPT = r"""
(() => {
  const get = id => document.getElementById(id);
  const shown = () => [...document.querySelectorAll("#places .card")].filter(it => it.checkVisibility())
    .map(it => it.querySelector(".kind").textContent);
  const set = (id, value) => { get(id).value = value; get(id).dispatchEvent(new Event("input")); };
  const seen = {title: document.title, all: shown()};
  set("words", "after USE");
  seen.words = shown(); seen.found = get("found").textContent;
  set("words", "nothing has this");
  seen.none = shown(); seen.nothing = get("found").textContent;
  set("words", ""); set("class", "heap-buffer-overflow");
  seen.class = shown();
  set("class", ""); set("order", "count");
  seen.count = shown();
  set("order", "place");
  seen.place = shown();
  const card = document.querySelectorAll("#places .card")[0];
  card.open = true;
  seen.hit = card.querySelector(".source b").textContent.trim();
  const cells = column => [...get("processes").tBodies[0].rows].map(it => it.cells[column].textContent);
  const heads = get("processes").querySelectorAll("th button");
  heads[2].click();
  seen.up = cells(2); seen.sorted = heads[2].parentNode.getAttribute("aria-sort");
  heads[2].click();
  seen.down = cells(2);
  get("theme").click();
  const dark = getComputedStyle(document.body).backgroundColor;
  get("theme").click();
  seen.themes = dark !== getComputedStyle(document.body).backgroundColor;
  seen.unnamed = [...document.querySelectorAll("button, input, select, summary")]
    .filter(it => !(it.textContent.trim() || it.getAttribute("aria-label"))).length;
  seen.wide = document.documentElement.scrollWidth > innerWidth;
  return seen;
})()
"""

# Flaws in the look of the page: text that is hard to read, that is cut or leads out of the window, or that lies
# on other text.
LOOKS = r"""
(() => {
  const wrong = [];
  const channel = it => it <= 0.03928 ? it / 12.92 : ((it + 0.055) / 1.055) ** 2.4;
  const numbers = color => color.match(/[\d.]+/g).map(Number);
  const light = color => numbers(color).slice(0, 3).map(it => channel(it / 255))
    .reduce((sum, it, at) => sum + it * [0.2126, 0.7152, 0.0722][at], 0);
  const backOf = it => {
    for (; it; it = it.parentElement) {
      const color = getComputedStyle(it).backgroundColor;
      if (numbers(color)[3] !== 0) return color;
    }
    return "rgb(255, 255, 255)";
  };
  const name = it => it.tagName + "." + it.className + ": " + it.textContent.trim().slice(0, 40);
  for (const it of document.body.querySelectorAll("*")) {
    if (!it.checkVisibility() || it.closest("script")) continue;
    const own = [...it.childNodes].some(node => node.nodeType === 3 && node.textContent.trim());
    const box = it.getBoundingClientRect();
    if (own) {
      const [a, b] = [light(getComputedStyle(it).color), light(backOf(it))].sort((x, y) => y - x);
      if ((a + 0.05) / (b + 0.05) < 4.5) wrong.push("pale " + name(it));
      if (parseFloat(getComputedStyle(it).fontSize) < 12) wrong.push("tiny " + name(it));
    }
    if (it.closest(".source, .scroll")) continue;
    if (box.right > document.documentElement.clientWidth + 1 || box.left < 0) wrong.push("outside " + name(it));
    const isBlock = getComputedStyle(it).display !== "inline";
    if (own && isBlock && it.scrollWidth > it.clientWidth + 1) wrong.push("cut " + name(it));
  }
  for (const parent of document.querySelectorAll("header, .card > summary, .tiles, .tools, main")) {
    const boxes = [...parent.children].filter(it => it.checkVisibility()).map(it => [it, it.getBoundingClientRect()]);
    boxes.forEach(([it, a], at) => boxes.slice(at + 1).forEach(([other, b]) => {
      const wide = Math.min(a.right, b.right) - Math.max(a.left, b.left);
      const high = Math.min(a.bottom, b.bottom) - Math.max(a.top, b.top);
      if (wide > 1 && high > 1) wrong.push(name(it) + " on " + name(other));
    }));
  }
  return wrong;
})()
"""

FREED, OVERFLOW = "heap-use-after-free", "heap-buffer-overflow"
WANTED = {
    "title": "asancol: 4 reports at 2 places; 2 processes, 29 events; 1 INCOMPLETE",
    "all": [OVERFLOW, FREED],
    "words": [FREED],
    "found": "1 of 2 places match.",
    "none": [],
    "nothing": "Nothing matches.",
    "class": [OVERFLOW],
    "count": [FREED, OVERFLOW],
    "place": [FREED, OVERFLOW],
    "hit": '7      here("use"); /* <b>&"quoted"</b> */',
    "up": ["9", "20"],
    "sorted": "ascending",
    "down": ["20", "9"],
    "themes": True,
    "unnamed": 0,
    "wide": False,
    "troubles": [],
    "requests": [],
}


def find() -> Optional[str]:
    paths = (shutil.which(name) for name in NAMES)
    return next((path for path in paths if path), None)


class Browser:
    """A Chromium that is asked over a pipe."""

    def __init__(self, tool: str, folder: str) -> None:
        theirs_in, self.ours_out = os.pipe()
        self.ours_in, theirs_out = os.pipe()
        # The browser reads its descriptor 3 and writes its descriptor 4.
        line = f'exec "$0" "$@" 3<&{theirs_in} 4>&{theirs_out}'
        argv = [tool, "--headless", "--no-sandbox", "--disable-gpu", "--no-first-run", "--window-size=380,800",
                 "--disable-background-networking", f"--user-data-dir={folder}/browser", "--remote-debugging-pipe"]
        self.child = Started(["bash", "-c", line, *argv], pass_fds=[theirs_in, theirs_out],
                             stdout=subprocess.DEVNULL, stderr=subprocess.DEVNULL)
        os.close(theirs_in)
        os.close(theirs_out)
        self.rest = b""
        self.number = 0
        self.events: List[Dict[str, Any]] = []

    def message(self) -> Dict[str, Any]:
        while b"\0" not in self.rest:
            with killed_after(self.child.pid):
                piece = os.read(self.ours_in, 1 << 16)
            if not piece:
                raise EOFError("Chromium has ended")
            self.rest += piece
        text, _, self.rest = self.rest.partition(b"\0")
        return json.loads(text)

    def ask(self, method: str, session: str = "", **values: Any) -> Dict[str, Any]:
        self.number += 1
        asked = {"id": self.number, "method": method, "params": values, **({"sessionId": session} if session else {})}
        os.write(self.ours_out, json.dumps(asked).encode() + b"\0")
        while True:
            answer = self.message()
            if answer.get("id") == self.number:
                return answer.get("result", {})
            self.events.append(answer)

    def wait(self, method: str) -> None:
        while not any(event.get("method") == method for event in self.events):
            self.events.append(self.message())

    def close(self) -> None:
        self.child.kill()
        self.child.wait()
        os.close(self.ours_in)
        os.close(self.ours_out)


def open_page(browser: Browser, path: str) -> str:
    """Opens a page and returns the session that it is asked in."""
    target = browser.ask("Target.createTarget", url="about:blank")["targetId"]
    session = browser.ask("Target.attachToTarget", targetId=target, flatten=True)["sessionId"]
    for domain in ("Runtime", "Log", "Network", "Page"):
        browser.ask(domain + ".enable", session)
    browser.events.clear()
    browser.ask("Page.navigate", session, url=f"file://{path}")
    browser.wait("Page.loadEventFired")
    return session


def value_of(browser: Browser, session: str, script: str) -> Any:
    result = browser.ask("Runtime.evaluate", session, expression=script, returnByValue=True, awaitPromise=True)
    return result.get("result", {}).get("value") or {"result": result}


def look(tool: str, folder: str, page: str) -> Dict[str, Any]:
    """Opens a page of a folder, and returns the observations."""
    browser = Browser(tool, folder)
    try:
        session = open_page(browser, f"{folder}/{page}")
        seen: Dict[str, Any] = value_of(browser, session, SCRIPT)
    finally:
        browser.close()
    seen["troubles"] = [event for event in browser.events
                        if event["method"] in ("Runtime.exceptionThrown", "Log.entryAdded", "Runtime.consoleAPICalled")]
    asked = [event["params"]["request"]["url"] for event in browser.events
             if event["method"] == "Network.requestWillBeSent"]
    seen["requests"] = [url for url in asked if not url.startswith((f"file://{folder}/{page}", "data:"))]
    return seen


class Picture(NamedTuple):
    """How a page looks in a window."""

    name: str
    is_dark: bool
    wrong: List[str]
    size: Tuple[int, int]
    corner: Tuple[int, ...]  # the color of the first point, which is that of the page
    colors: int  # how many bytes of the points differ


def picture_of(browser: Browser, session: str, name: str, width: int, is_dark: bool, has_scripts: bool) -> Picture:
    window = {"width": width, "height": 900, "deviceScaleFactor": 1, "mobile": False}
    browser.ask("Emulation.setDeviceMetricsOverride", session, **window)
    scheme = "dark" if is_dark else "light"
    browser.ask("Emulation.setEmulatedMedia", session, features=[{"name": "prefers-color-scheme", "value": scheme}])
    browser.ask("Emulation.setScriptExecutionDisabled", session, value=not has_scripts)
    browser.events.clear()
    browser.ask("Page.reload", session)
    browser.wait("Page.loadEventFired")
    result = browser.ask("Runtime.evaluate", session, expression=LOOKS, returnByValue=True)
    png = base64.b64decode(browser.ask("Page.captureScreenshot", session, format="png")["data"])
    name += f"-{width}-{scheme}" + ("" if has_scripts else "-no-script")
    if os.environ.get("ASANCOL_PICTURES"):
        with open(f"{os.environ['ASANCOL_PICTURES']}/{name}.png", "wb") as file:
            file.write(png)
    points = points_of(png)
    wrong = result.get("result", {}).get("value", [str(result)])
    wide, high = struct.unpack(">II", png[16:24])
    return Picture(name, is_dark, wrong, (wide, high), tuple(points[1:4]), len(set(points)))


def points_of(png: bytes) -> bytes:
    """Returns the rows of a picture, each after the number of its filter. The first point of all is as it is."""
    at, data = 8, b""
    while at < len(png):
        size, kind = struct.unpack(">I4s", png[at:at + 8])
        data += png[at + 8:at + 8 + size] if kind == b"IDAT" else b""
        at += size + 12
    return zlib.decompress(data)


def pictures(tool: str, folder: str, pages: List[str]) -> Iterator[Picture]:
    """Takes pictures of pages in a folder: narrow and wide, light and dark, and without scripts."""
    browser = Browser(tool, folder)
    try:
        for page in pages:
            session = open_page(browser, f"{folder}/{page}.html")
            for width in (360, 1280):
                for is_dark in (False, True):
                    yield picture_of(browser, session, page, width, is_dark, has_scripts=True)
            yield picture_of(browser, session, page, 700, is_dark=False, has_scripts=False)
    finally:
        browser.close()
