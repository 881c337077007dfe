"""Unexpected results of a test, and omitted tests."""

from typing import Any


class Failure(Exception):
    """What a test saw and did not expect."""


class LeftOut(Exception):
    """Why a test can't run here."""


def leave_out(what: str) -> None:
    """Says that a part of the tests is left out, and why."""
    print(f"left out: {what}", flush=True)


def expect(seen: Any, wanted: Any, what: Any = "") -> None:
    if seen != wanted:
        raise Failure(f"{what}: saw {seen!r}, wanted {wanted!r}")


def expect_in(text: str, *parts: str) -> None:
    for part in parts:
        if part not in text:
            raise Failure(f"{part!r} is not in {text!r}")


def expect_not_in(text: str, *parts: str) -> None:
    for part in parts:
        if part in text:
            raise Failure(f"{part!r} is in {text!r}")
