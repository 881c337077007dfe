"""The command line."""

from __future__ import annotations

import os
from typing import Dict, List, Tuple

from .errors import Refused
from .option_table import DEFAULTS, OF_CHECK, OUTPUTS, SHORT, SWITCHES, WITH_VALUE, WORDS


class Options:
    """What the command line says."""

    def __init__(self) -> None:
        self.switches: Dict[str, bool] = dict.fromkeys(SWITCHES, False)
        self.values: Dict[str, str] = {}
        self.outputs: List[Tuple[str, str]] = []
        self.suppressions: List[str] = []
        self.hidden_frames: List[str] = []
        self.files: List[str] = []

    @property
    def check_words(self) -> List[str]:
        return [word for name in OF_CHECK if name in self.values for word in (name, self.values[name])]

    @property
    def has_text(self) -> bool:
        """Whether standard output is free for the text."""
        return all(path != "-" for _, path in self.outputs)

    def value(self, name: str, default: str = "") -> str:
        return self.values.get(name, DEFAULTS.get(name, default))


def closest(word: str) -> str:
    """Returns the option that somebody may have meant, as words for a message."""
    import difflib

    near = difflib.get_close_matches(word, [*WITH_VALUE, *SWITCHES], 1)
    return f"; did you mean {near[0]}?" if near else ""


def take(options: Options, name: str, rest: List[str], value: str, has_value: bool) -> None:
    """Takes in one option."""
    if name in SWITCHES:
        if has_value:
            raise Refused(f"{name} takes no value")
        options.switches[name] = True
    elif name in WITH_VALUE:
        if not has_value:
            if not rest or rest[0] == "--":
                raise Refused(f"{name} needs a value")
            value = rest.pop(0)
        if not value:
            raise Refused(f"{name} needs a value")
        if name == "--suppressions":
            options.suppressions.append(value)
        if name == "--hide-frames":
            options.hidden_frames.append(value)
        if name in OUTPUTS:
            options.outputs.append((name, value))
        options.values[name] = value
    else:
        raise Refused(f"unknown option {name}{closest(name)}")


def read(argv: List[str]) -> Options:
    """Reads the command line. Refused, if it makes no sense."""
    options, rest = Options(), list(argv)
    while rest:
        word = rest.pop(0)
        if word == "--":
            options.files += rest
            break
        if word == "-" or not word.startswith("-"):
            options.files.append(word)
        elif word.startswith("--"):
            name, equals, value = word.partition("=")
            take(options, name, rest, value, bool(equals))
        else:
            take(options, SHORT.get(word, word), rest, "", False)
    if not options.switches["--help"] and not options.switches["--version"] and not options.value("--doctor-of"):
        look_over(options)
    return options


def look_over(options: Options) -> None:
    """Refuses options that do not go together."""
    switches = options.switches
    for name, words in WORDS.items():
        if options.value(name) not in words:
            raise Refused(f"{name} is {', '.join(words[:-1])} or {words[-1]}")
    if sum(path == "-" for _, path in options.outputs) > 1:
        raise Refused("only one output can go to standard output")
    if switches["--run"] and switches["--trace"]:
        raise Refused("--run and --trace do not go together")
    if options.value("--nested") and not switches["--run"]:
        raise Refused("--nested is for --run")
    if options.value("--source-url"):
        look_at_url(options.value("--source-url"))
    if options.check_words and not switches["--trace"]:
        raise Refused(f"{options.check_words[0]} is for --trace")
    if switches["--trace"] and "-" in options.files:
        raise Refused("a trace on standard input has no side file: name a file")
    if options.files.count("-") > 1:
        raise Refused("standard input can be read once")
    if not options.files and not switches["--run"] and not switches["--rules-alone"]:
        raise Refused("no file was named; --help says more")
    if not switches["--run"]:  # there nothing may be lost, and asancol-run has looked at the names
        look_for_losses(options)


def look_at_url(template: str) -> None:
    from .source_url import fault_of

    fault = fault_of(template)
    if fault:
        raise Refused(f"--source-url: '{template}' {fault}")


def look_for_losses(options: Options) -> None:
    """Refuses to overwrite an input, or another output. A result may be renewed in its own file."""
    results = [] if options.switches["--trace"] else [*options.files, options.value("--baseline")]
    others = [*options.suppressions, *options.files, options.value("--baseline")]
    written: Dict[str, str] = {}
    for name, path in options.outputs:
        target = os.path.realpath(path)
        if path == "-" or (os.path.exists(target) and not os.path.isfile(target)):
            continue
        if target in written:
            raise Refused(f"{written[target]} and {name} both write {path}")
        written[target] = name
        is_renewed = name == "--json" and any(os.path.realpath(it) == target for it in results if it)
        if not is_renewed and any(os.path.realpath(it) == target for it in others if it):
            raise Refused(f"{name} would write over {path}, which is read")
