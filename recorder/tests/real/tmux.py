#!/usr/bin/env python3
"""Drives a server of tmux that was built in this folder: sessions, windows, panes, keys, buffers, formats, clients.

usage: cd SOURCES && tmux.py
"""

import os
import pty
import shutil
import subprocess
import tempfile
import threading
from typing import Optional

from steps import Steps, comes_to, text_of

TMUX = f"{os.getcwd()}/tmux"
HERE = tempfile.mkdtemp(prefix="tmux.")  # the path of a socket is short
FRONT = [TMUX, "-S", f"{HERE}/socket", "-f", f"{HERE}/own.conf"]
CONFIGURATION = """
set -g default-shell /bin/sh
set -g default-command "PS1='$ ' exec sh"
set -g default-terminal screen
set -g history-limit 500
set -g assume-paste-time 0
set -g status-right "#{session_name} #{?window_zoomed_flag,whole,part}"
bind C-x display-message "a key"
bind C-p command-prompt -p "what is it?" "display-message 'it is %1'"
"""


def run(*words: str, text: str = "") -> "subprocess.CompletedProcess[str]":
    settings = {**os.environ, "LC_ALL": "C.UTF-8", "TERM": "xterm"}
    settings.pop("TMUX", None)
    return subprocess.run([*FRONT, *words], input=text, env=settings, stdout=subprocess.PIPE,
                          stderr=subprocess.STDOUT, text=True, timeout=60, check=False)


def said(*words: str) -> str:
    return run(*words).stdout.strip()


def shown(target: str = "", *options: str) -> str:
    return said("capture-pane", "-p", *options, "-t", target)


def format_of(text: str, target: str = "") -> str:
    return said("display-message", "-p", "-t", target, text)


class Client:
    """One at a terminal of its own, of which all is read."""

    def __init__(self, *words: str) -> None:
        self.text = b""
        self.process, self.terminal = pty.fork()
        if self.process == 0:
            os.environ.update(LC_ALL="C.UTF-8", TERM="xterm")
            os.environ.pop("TMUX", None)
            os.execv(TMUX, [*FRONT, *words])
        self.reader = threading.Thread(target=self.read, daemon=True)
        self.reader.start()

    def read(self) -> None:
        while True:
            try:
                piece = os.read(self.terminal, 65536)
            except OSError:
                return
            if not piece:
                return
            self.text += piece

    def type(self, keys: bytes) -> None:
        os.write(self.terminal, keys)

    def status(self) -> Optional[int]:
        """If it has ended."""
        found, status = os.waitpid(self.process, os.WNOHANG)
        return os.waitstatus_to_exitcode(status) if found else None


def sessions(steps: Steps) -> None:
    steps.same("a session", run("new-session", "-d", "-s", "one", "-x", "80", "-y", "24").returncode, 0)
    steps.same("its name", said("list-sessions", "-F", "#{session_name} #{window_width}"), "one 80")
    run("send-keys", "-t", "one", "echo $((6 * 7))x", "Enter")
    steps.comes("keys", lambda: shown("one"), lambda seen: "42x" in seen)
    run("send-keys", "-t", "one", "-l", "printf '%s\\n' 'é 日本語 ☃'")
    run("send-keys", "-t", "one", "Enter")
    steps.comes("wide letters", lambda: shown("one"), lambda seen: "\né 日本語 ☃\n" in seen)
    run("send-keys", "-t", "one", "printf '\\033[31;1mred\\033[0m \\033[48;5;20mblue\\033[0m\\n'", "Enter")
    steps.comes("colours", lambda: shown("one", "-e"), lambda seen: "[31mred" in seen and "[48;5;20mblue" in seen)
    run("send-keys", "-t", "one", "i=0; while [ $i -lt 700 ]; do i=$((i + 1)); echo line $i; done", "Enter")
    steps.comes("a full history", lambda: shown("one", "-S", "-"), lambda it: "line 250\n" in it and "line 700" in it)
    steps.same("a second session", run("new-session", "-d", "-s", "two").returncode, 0)
    steps.same("a name that is taken", run("new-session", "-d", "-s", "two").returncode, 1)
    run("rename-session", "-t", "two", "second")
    steps.same("another name", run("has-session", "-t", "second").returncode, 0)


def windows(steps: Steps) -> None:
    run("new-window", "-t", "one", "-n", "next")
    steps.same("a window", format_of("#{window_index} #{window_name}", "one"), "1 next")
    for way in ("-h", "-v", "-h"):
        run("split-window", way, "-t", "one")
    steps.same("panes", said("list-panes", "-t", "one", "-F", "#{pane_index}").split(), ["0", "1", "2", "3"])
    for layout in ("even-horizontal", "even-vertical", "main-vertical", "tiled"):
        run("select-layout", "-t", "one", layout)
    steps.expect("layouts", "," in format_of("#{window_layout}", "one"))
    run("resize-pane", "-t", "one.0", "-x", "20")
    steps.same("a size", format_of("#{pane_width}", "one.0"), "20")
    run("swap-pane", "-s", "one.0", "-t", "one.3")
    run("rotate-window", "-t", "one")
    run("resize-pane", "-Z", "-t", "one")
    steps.same("one that is whole", format_of("#{window_zoomed_flag}", "one"), "1")
    steps.same("a pane that leaves", run("break-pane", "-d", "-s", "one.1", "-t", "one:9", "-n", "alone").returncode, 0)
    joined = run("join-pane", "-d", "-s", "one:alone", "-t", "one:next")
    steps.same("a pane that comes back", (joined.returncode, joined.stdout), (0, ""))
    run("respawn-pane", "-k", "-t", "one.0", "echo again; exec sleep 1000")
    steps.comes("a new program", lambda: shown("one.0"), lambda seen: "again" in seen)
    run("kill-pane", "-a", "-t", "one.0")
    steps.same("one pane is left", said("list-panes", "-t", "one").count("\n"), 0)
    run("link-window", "-s", "one:next", "-t", "second:5")
    steps.same("a window of two", said("list-windows", "-t", "second", "-F", "#{window_name}").split()[-1], "next")
    run("unlink-window", "-t", "second:5")
    run("move-window", "-r", "-t", "one")
    run("select-window", "-t", "one:0")


def buffers(steps: Steps) -> None:
    run("set-buffer", "-b", "first", "of a buffer")
    steps.same("a buffer", said("show-buffer", "-b", "first"), "of a buffer")
    run("load-buffer", "-b", "long", "-", text="y" * 100_000)
    run("save-buffer", "-b", "long", f"{HERE}/saved")
    steps.same("a long one", text_of(f"{HERE}/saved"), "y" * 100_000)
    run("send-keys", "-t", "one", "clear; echo re''ady; cat > /dev/null", "Enter")
    steps.comes("a program that reads", lambda: shown("one"), lambda seen: "ready" in seen)
    run("paste-buffer", "-b", "first", "-t", "one")
    steps.comes("it is pasted", lambda: shown("one"), lambda seen: "of a buffer" in seen)
    run("send-keys", "-t", "one", "Enter", "C-d")
    run("copy-mode", "-t", "one")
    for key in ("history-top", "begin-selection", "page-down", "search-backward line", "copy-selection-and-cancel"):
        run("send-keys", "-t", "one", "-X", *key.split(" ", 1))
    steps.expect("a copy", "buffer" in said("list-buffers"), said("list-buffers"))
    run("delete-buffer", "-b", "first")
    steps.same("one that is gone", run("show-buffer", "-b", "first").returncode, 1)


def options(steps: Steps) -> None:
    run("set-option", "-g", "@own", "value")
    steps.same("an option", said("show-options", "-gv", "@own"), "value")
    steps.same("one that is none", run("set-option", "-g", "none-such", "1").returncode, 1)
    text = "#{=3:@own} #{s/a/o/:@own} #{?#{==:#{@own},value},same,other}"
    steps.same("a format", format_of(text, "one"), "val volue same")
    run("set-environment", "-g", "OWN", "of all")
    steps.same("the environment", said("show-environment", "-g", "OWN"), "OWN=of all")
    run("run-shell", f"echo from $((1 + 1)) > {HERE}/shell")
    steps.same("a shell's output", text_of(f"{HERE}/shell"), "from 2\n")
    run("set-hook", "-g", "window-renamed", "set-buffer -b hook done")
    run("rename-window", "-t", "one", "other")
    steps.comes("a hook", lambda: said("show-buffer", "-b", "hook"), lambda seen: seen == "done")
    run("pipe-pane", "-t", "one", f"cat > {HERE}/piped")
    run("send-keys", "-t", "one", "echo by a pipe", "Enter")
    steps.comes("a pipe", lambda: text_of(f"{HERE}/piped"), lambda seen: "by a pipe" in seen)
    steps.expect("the keys", "display-message" in said("list-keys", "-T", "prefix"))
    steps.same("a channel", [run("wait-for", how, "one").returncode for how in ("-L", "-U")], [0, 0])


def clients(steps: Steps) -> None:
    one = Client("attach-session", "-t", "one")
    steps.comes("a client", lambda: said("list-clients", "-F", "#{client_session}"), lambda seen: seen == "one")
    one.type(b"echo typed $((40 + 4))\r")
    steps.comes("what is typed", lambda: shown("one"), lambda seen: "typed 44" in seen)
    one.type(b"\x02\x18")
    steps.comes("a bound key", lambda: one.text, lambda seen: b"a key" in seen)
    one.type(b"\x02\x10")
    steps.comes("a prompt", lambda: one.text, lambda seen: b"what is it?" in seen)
    one.type(b"late\r")
    steps.comes("what is answered", lambda: one.text, lambda seen: b"it is late" in seen)
    one.type(b"\x02w")
    steps.comes("a tree of windows", lambda: format_of("#{pane_mode}", "one"), lambda seen: seen == "tree-mode")
    one.type(b"q")
    steps.comes("no tree", lambda: format_of("#{pane_mode}", "one"), lambda seen: seen == "")
    one.type(b"\x02d")
    steps.comes("it leaves", one.status, lambda seen: seen == 0)
    seen = run("-C", "attach-session", "-t", "one", text="list-sessions\nnonsense\ndetach-client\n").stdout
    steps.expect("a client without a terminal", "%begin" in seen and "%error" in seen, seen)


def main() -> None:
    with open(f"{HERE}/own.conf", "w", encoding="utf-8") as file:
        file.write(CONFIGURATION)
    steps = Steps()
    try:
        sessions(steps)
        windows(steps)
        buffers(steps)
        options(steps)
        clients(steps)
        server = int(format_of("#{pid}"))
        steps.same("the end", run("kill-server").returncode, 0)
        steps.expect("the server has ended", comes_to(lambda: os.path.exists(f"/proc/{server}"), lambda it: not it)[0])
    finally:
        run("kill-server")
        shutil.rmtree(HERE, ignore_errors=True)
    print(f"{steps.done} steps")


if __name__ == "__main__":
    main()
