"""What the scripts that drive a server share: a line `ok NAME` for each step that went as it has to."""

import time
from typing import Any, Callable, Tuple

LONGEST = 60.0  # seconds that a step waits for what it wants to see


class Steps:
    """The steps so far. The first that is wrong is the last, since the others need it."""

    def __init__(self) -> None:
        self.done = 0

    def expect(self, name: str, is_right: bool, seen: Any = "") -> None:
        if not is_right:
            raise SystemExit(f"wrong {name}: {seen!r}")
        self.done += 1
        print(f"ok {name}", flush=True)

    def same(self, name: str, seen: Any, wanted: Any) -> None:
        self.expect(name, seen == wanted, seen)

    def comes(self, name: str, look: Callable[[], Any], wanted: Callable[[Any], Any]) -> Any:
        """Looks again and again until it is as it is wanted."""
        is_there, seen = comes_to(look, wanted)
        self.expect(name, is_there, seen)
        return seen


def comes_to(look: Callable[[], Any], wanted: Callable[[Any], Any]) -> Tuple[bool, Any]:
    end = time.monotonic() + LONGEST
    while True:
        seen = look()
        if wanted(seen):
            return True, seen
        if time.monotonic() > end:
            return False, seen
        time.sleep(0.05)


def text_of(path: str) -> str:
    """A file, or nothing if it is not there."""
    try:
        with open(path, encoding="utf-8", errors="replace") as file:
            return file.read()
    except FileNotFoundError:
        return ""
