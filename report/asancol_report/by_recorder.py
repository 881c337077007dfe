"""Findings of the recorder: what it knows to be wrong, and no event of the trace shows. No checker has judged them, and
each output says so. common/README.md lists their kinds."""

from __future__ import annotations

from typing import Callable, Dict, NamedTuple, Optional, Tuple

from .class_names import (
    ALIGNMENTS, BAD_SHADOW, CLASSES, CONTAINER, DOUBLE_ENDED, INDIRECT_LEAK, LEAK, MISMATCH, NEGATIVE_SIZE, NO_MEMORY,
    ODR, POINTER_PAIR, SIZE_MISMATCH, SIZES_ASKED, TOO_BIG,
)
from .leaks import leak_text, Leaks
from .side import (
    Fault, FINDING_ALIGNMENT, FINDING_CONTAINER, FINDING_DOUBLE_ENDED, FINDING_FAMILY, FINDING_INDIRECT_LEAK,
    FINDING_LAST, FINDING_LEAK, FINDING_NEGATIVE_SIZE, FINDING_NO_MEMORY, FINDING_NOT_OWNED, FINDING_ODR,
    FINDING_OTHER_ALIGNMENT, FINDING_OVERFLOW, FINDING_OVERLAP, FINDING_POINTERS, FINDING_SHADOW, FINDING_SIZE,
    FINDING_TOO_BIG,
)
from .words import plural

# What an access is called that is none: a call with wrong arguments.
CALL = "call"
# A size as a program sees it.
SIZE_END = 1 << 64
NEGATIVE = 1 << 63


def given_address(fault: Fault) -> int:
    """Returns where what the call was given starts; or else where its block does."""
    return fault.start or fault.block


def no_address(_: Fault) -> int:
    return 0


class Form(NamedTuple):
    """What the findings of a kind are."""

    class_of: Callable[[Fault], str]
    access: str
    words: Callable[[Fault], str]  # what the recorder says
    address: Callable[[Fault], int] = given_address
    has_size: bool = True


def lost_at(fault: Fault) -> Leaks:
    """Returns what a process has lost at the place of a leak."""
    return Leaks(1, fault.count, fault.size)


def ranges(fault: Fault) -> str:
    """Returns the two ranges of a call. Their first bytes are those of its first two arguments."""
    one, other = ("[0x{:x}, 0x{:x})".format(it, it + fault.size) for it in (fault.start, fault.other))
    return f"memory ranges {one} and {other} overlap"


def product(fault: Fault) -> str:
    if fault.other:
        return f"{fault.other} * {fault.size} bytes are more than a size can say"
    return f"{plural(fault.size, 'byte')}, rounded up to a page, are more than a size can say"


def of_call(suffix: str) -> Callable[[Fault], str]:
    """Returns what names a class by the call. One that nobody knows has the name of the first function of its kind."""
    first = {"param-overlap": "memcpy", "overflow": "calloc"}[suffix]
    return lambda fault: f"{fault.call}-{suffix}" if f"{fault.call}-{suffix}" in CLASSES else f"{first}-{suffix}"


def wrong_alignment(fault: Fault) -> str:
    is_power = fault.start != 0 and fault.start & (fault.start - 1) == 0
    why = ": the size is not a multiple of it" if is_power and fault.call == "aligned_alloc" else ""
    return f"alignment {fault.start} of {plural(fault.size, 'byte')} in {fault.call}{why}"


def other_alignment(fault: Fault) -> str:
    """Returns both alignments, and both sizes, if the delete says another one too."""
    said, made = (f"alignment {it}" if it else "no alignment" for it in (fault.start, fault.other))
    size = f" of {plural(fault.size, 'byte')}" if fault.size else ""
    return f"{fault.call}{size} with {said}, and {plural(fault.block_size, 'byte')} with {made} were allocated"


def container(fault: Fault) -> str:
    end = (fault.start + fault.size) % SIZE_END
    return f"0x{fault.other:x} is not in the container's memory [0x{fault.start:x}, 0x{end:x})"


def not_owned(fault: Fault) -> str:
    return f"bad-{fault.call}" if fault.call in SIZES_ASKED else f"bad-{SIZES_ASKED[0]}"


def two_definitions(fault: Fault) -> str:
    """Returns the definitions of a global: the one that came, and the one that was there."""
    name, place = name_and_place(fault.name)
    _, other = name_and_place(fault.variables)
    return (f"global '{name}' of {plural(fault.size, 'byte')} at {place or 'an unknown place'}, and of "
            f"{plural(fault.block_size, 'byte')} at {other or 'an unknown place'}")


def name_and_place(text: str) -> Tuple[str, str]:
    name, _, place = text.partition(" ")
    return name, place


def definition(fault: Fault) -> Optional[Tuple[str, str, int]]:
    """Returns the name, file and line of what a finding is about, if it is about a definition and no call."""
    if fault.kind != FINDING_ODR:
        return None
    name, place = name_and_place(fault.name)
    file, _, line = place.rpartition(":")
    return (name, file, int(line)) if file and line.isdecimal() else (name, place, 0)


def shadow(fault: Fault) -> str:
    left, byte = divmod(fault.other, 256)
    return f"the shadow byte of 0x{fault.start:x} is {byte:02x}, and should be {left:02x}"


def signed(size: int) -> int:
    return size - SIZE_END if size >= NEGATIVE else size


FORMS: Dict[int, Form] = {
    FINDING_LEAK: Form(lambda _: LEAK, "malloc", lambda it: leak_text(LEAK, lost_at(it)), no_address),
    FINDING_INDIRECT_LEAK: Form(lambda _: INDIRECT_LEAK, "malloc",
                                lambda it: leak_text(INDIRECT_LEAK, lost_at(it)), no_address),
    FINDING_FAMILY: Form(lambda _: MISMATCH, "free", lambda it: f"{it.name} vs {it.call}", has_size=False),
    FINDING_SIZE: Form(lambda _: SIZE_MISMATCH, "free", lambda it: (
        f"{it.call} of {plural(it.size, 'byte')}, and {plural(it.block_size, 'byte')} were allocated")),
    FINDING_OVERLAP: Form(of_call("param-overlap"), CALL, ranges),
    FINDING_NEGATIVE_SIZE: Form(lambda _: NEGATIVE_SIZE, CALL, lambda it: f"(size={signed(it.size)}) in {it.call}"),
    FINDING_OVERFLOW: Form(of_call("overflow"), "malloc", product, no_address),
    FINDING_ALIGNMENT: Form(lambda it: ALIGNMENTS.get(it.call, ALIGNMENTS["memalign"]), "malloc", wrong_alignment,
                            no_address),
    FINDING_TOO_BIG: Form(lambda _: TOO_BIG, "malloc", lambda it: f"request for {plural(it.size, 'byte')}",
                          no_address),
    FINDING_NO_MEMORY: Form(lambda _: NO_MEMORY, "malloc", lambda it: (
        f"request for {plural(it.size, 'byte')}, and there is no memory"), no_address),
    FINDING_CONTAINER: Form(lambda _: CONTAINER, CALL, container, no_address, False),
    FINDING_DOUBLE_ENDED: Form(lambda _: DOUBLE_ENDED, CALL, container, no_address, False),
    FINDING_POINTERS: Form(lambda _: POINTER_PAIR, CALL, lambda it: f"0x{it.start:x} and 0x{it.other:x}",
                           has_size=False),
    FINDING_ODR: Form(lambda _: ODR, CALL, two_definitions, no_address, False),
    FINDING_SHADOW: Form(lambda _: BAD_SHADOW, CALL, shadow, has_size=False),
    FINDING_NOT_OWNED: Form(not_owned, CALL, lambda it: (
        f"{it.call} of a pointer to no block"), has_size=False),
    FINDING_OTHER_ALIGNMENT: Form(lambda _: SIZE_MISMATCH, "free", other_alignment, lambda it: it.block, False),
}
assert set(FORMS) == set(range(FINDING_LEAK, FINDING_LAST + 1))
