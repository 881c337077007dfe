"""The number of each class in the Common Weakness Enumeration, which has a page for each."""

from __future__ import annotations

import re

WEAKNESS_URL = "https://cwe.mitre.org/data/definitions/{}.html"

# The first pattern that matches a class counts. The names of the numbers stand beside them.
WEAKNESSES = (
    (r"use-after-free", 416),  # Use After Free
    (r"use-after-return", 562),  # Return of Stack Variable Address
    (r"use-after-scope", 825),  # Expired Pointer Dereference
    (r"use-after-poison", 672),  # Operation on a Resource after Expiration or Release
    (r"double-free", 415),  # Double Free
    (r"^bad-free", 763),  # Release of Invalid Pointer or Reference
    (r"dealloc|mismatch", 762),  # Mismatched Memory Management Routines
    (r"leak", 401),  # Missing Release of Memory after Effective Lifetime
    (r"^stack-overflow", 674),  # Uncontrolled Recursion
    (r"(calloc|array|pvalloc)-overflow", 190),  # Integer Overflow or Wraparound
    (r"^negative-size", 195),  # Signed to Unsigned Conversion Error
    (r"too-big|out-of-memory", 789),  # Memory Allocation with Excessive Size Value
    (r"overlap|alignment|annotate|(usable|allocated)_size", 628),  # Function Call with Incorrectly Specified Arguments
    (r"pointer-pair", 469),  # Use of Pointer Subtraction to Determine Size
    (r"heap-buffer-overflow", 122),  # Heap-based Buffer Overflow
    (r"stack-buffer", 121),  # Stack-based Buffer Overflow
    (r"^FPE$", 369),  # Divide By Zero
    (r"^ABRT$", 617),  # Reachable Assertion
    (r"odr|init.*-order|^ILL$|^TRAP$", 758),  # Reliance on Undefined, Unspecified, or Implementation-Defined Behavior
    (r"overflow|unknown|bad-shadow|bad-malloc|^SEGV$|^BUS$", 119),  # Improper Restriction of Operations within the
    # Bounds of a Memory Buffer
)


def weakness_of(name: str) -> int:
    """Returns the number of a class; 0, if there is none."""
    return next((number for pattern, number in WEAKNESSES if re.search(pattern, name)), 0)
