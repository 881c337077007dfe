"""Patterns as the sanitizers' suppressions have them: * is anything."""

from __future__ import annotations

import re


def pattern(text: str) -> re.Pattern[str]:
    """Returns an expression to search for: ^ in front and $ at the end are the ends of the word."""
    at_start, at_end = text.startswith("^"), text.endswith("$")
    middle = text[at_start:len(text) - at_end]
    return re.compile(("^" if at_start else "") + expression(middle) + (r"\Z" if at_end else ""), re.DOTALL)


def whole_pattern(text: str) -> re.Pattern[str]:
    """Returns an expression that matches whole words."""
    return re.compile(expression(text) + r"\Z", re.DOTALL)


def path_pattern(text: str) -> re.Pattern[str]:
    """Returns an expression that matches whole paths: their last names, or all of them."""
    return re.compile("(?:.*/)?" + expression(text) + r"\Z", re.DOTALL)


def expression(text: str) -> str:
    return ".*".join(re.escape(part) for part in re.split(r"\*+", text))
