"""Addresses of lines of source, by the template of --source-url. asancol-run refuses the same ones, by
run/source_url.c."""

from __future__ import annotations

import os
import re
from typing import Dict
from urllib.parse import quote

from .findings import Frame, SYSTEM_LIBRARY
from .words import shown_path

SCHEME = re.compile(r"([A-Za-z][A-Za-z0-9+.-]*):")
# A click on an address of such a scheme runs its text.
RUNNING = ("javascript", "data", "vbscript")
MARK = re.compile(r"\{(file|path|line|column)\}")


def fault_of(template: str) -> str:
    """Returns the mistake in a template and its remedy; nothing, if there is none."""
    scheme = SCHEME.match(template)
    if scheme is None:
        return "has no scheme: begin it with one, such as https: or vscode:"
    if scheme[1].lower() in RUNNING:
        return "would run what is in it: begin it with another scheme, such as https:"
    if "{file}" not in template and "{path}" not in template:
        return "does not say which file: write {file} or {path} where its path is to stand"
    if not re.fullmatch(r"[!-~]*", template):
        return "has a blank, or a character that is not ASCII: write its bytes as % and two hexadecimal digits"
    if re.search("[{}]", MARK.sub("", template)):
        return "has a brace of no mark: the marks are {file}, {path}, {line} and {column}"
    return ""


def encoded(path: str) -> str:
    """Returns a path as it can stand anywhere in an address."""
    return quote(path.encode("utf-8", "surrogateescape"), safe="/")


class SourceUrl:
    """A template. Without one, no frame has an address."""

    def __init__(self, template: str, root: str) -> None:
        self.template = template
        self.root = root  # {file} is a path from here

    def file(self, frame: Frame) -> str:
        """Returns the path of a frame's file from the folder; nothing, if the file is not below. A library of the
        system has relative paths that are none from there."""
        shown = shown_path(frame.file, self.root)
        is_elsewhere = shown == frame.file and SYSTEM_LIBRARY.match(frame.module)
        return "" if is_elsewhere or shown.startswith(("/", "../")) else shown.removeprefix("./")

    def of(self, frame: Frame) -> str:
        """Returns the address of a frame; nothing, if it has none."""
        file = self.file(frame)
        if not self.template or not frame.file or not frame.line or (not file and "{file}" in self.template):
            return ""
        values: Dict[str, str] = {
            "file": encoded(file),
            "path": encoded(os.path.join(self.root, frame.file)),
            "line": str(frame.line),
            "column": str(frame.column or 1),
        }
        return MARK.sub(lambda mark: values[mark[1]], self.template)
