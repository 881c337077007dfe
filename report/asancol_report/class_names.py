"""Names of classes. asancol has the coarse ones of its model; the shadow at the bad byte selects AddressSanitizer's."""

from __future__ import annotations

from .shade_table import SHADES
from .side import Fault, GRANULE, VARIABLE_NONE

# The classes that asancol prints, with their meaning.
OF_ASANCOL = {
    "heap-buffer-overflow": "Access outside a heap block",
    "heap-use-after-free": "Access to a freed heap block",
    "use-after-poison": "Access to memory that the program poisoned",
    "stack-buffer-overflow": "Access outside a variable on the stack",
    "global-buffer-overflow": "Access outside a global variable",
    "unknown-crash": "Access to memory that must not be accessed",
    "double-free": "Block freed twice",
    "bad-free": "Free of an address that is not the start of a block",
    "bad-malloc": "Block at an address where the allocator cannot have placed it",
}
NEGATIVE_SIZE = "negative-size-param"

# Findings of the recorder. Functions whose two ranges must not overlap, by the names in AddressSanitizer's classes, and
# those that multiply or round up what they are to allocate.
OVERLAPPING = ("memcpy", "mempcpy", "strcpy", "stpcpy", "strcat", "strncpy", "stpncpy", "strncat", "wcscpy", "wcpcpy",
               "wcscat", "wcsncpy", "wcpncpy", "wcsncat", "wmemcpy", "wmempcpy")
OVERFLOWING = ("calloc", "reallocarray", "pvalloc")
# The class of each function's wrong alignment.
ALIGNMENTS = {
    "aligned_alloc": "invalid-aligned-alloc-alignment", "posix_memalign": "invalid-posix-memalign-alignment",
    "memalign": "invalid-allocation-alignment",
}
LEAK, INDIRECT_LEAK = "leak", "indirect-leak"
MISMATCH, SIZE_MISMATCH = "alloc-dealloc-mismatch", "new-delete-type-mismatch"
# The title of a report, if it is not its class.
TITLES = {LEAK: "detected memory leaks", INDIRECT_LEAK: "detected memory leaks"}
TOO_BIG, NO_MEMORY = "allocation-size-too-big", "out-of-memory"
# Functions that return the size of a block.
SIZES_ASKED = ("malloc_usable_size", "__sanitizer_get_allocated_size")
CONTAINER = "bad-__sanitizer_annotate_contiguous_container"
DOUBLE_ENDED = "bad-__sanitizer_annotate_double_ended_contiguous_container"
POINTER_PAIR, ODR, INIT_ORDER = "invalid-pointer-pair", "odr-violation", "initialization-order-fiasco"
BAD_SHADOW = "bad-shadow"
CLASSES = {
    **OF_ASANCOL,
    "stack-buffer-underflow": "Access before the first variable of a frame",
    "stack-use-after-scope": "Access to a variable whose scope has ended",
    "stack-use-after-return": "Access to a variable whose function has returned",
    "dynamic-stack-buffer-overflow": "Access outside an alloca block or a variable-length array",
    "container-overflow": "Access to a container's memory outside its elements",
    "intra-object-overflow": "Access outside a field of an object",
    NEGATIVE_SIZE: "Call with a negative size",
    LEAK: "Unreachable block that was not freed",
    INDIRECT_LEAK: "Block that is reachable only from leaked blocks",
    MISMATCH: "Block freed by a function that does not match its allocation",
    SIZE_MISMATCH: "Object deleted with a size or alignment other than its allocation's",
    TOO_BIG: "Request for more memory than a block can have",
    NO_MEMORY: "Request for more memory than is available",
    CONTAINER: "Container annotation outside the container's memory",
    DOUBLE_ENDED: "Annotation of a double-ended container outside its memory",
    POINTER_PAIR: "Comparison or subtraction of pointers into different objects",
    ODR: "Global variable defined by two modules",
    BAD_SHADOW: "Heap block whose shadow was overwritten",
    INIT_ORDER: "Access to a global of another file before its initialisation",
    **{f"bad-{call}": "Size requested for an address that is not the start of a block" for call in SIZES_ASKED},
    **{f"{call}-param-overlap": f"Call of {call} with overlapping ranges" for call in OVERLAPPING},
    **{f"{call}-overflow": f"Call of {call} with a size that overflows" for call in OVERFLOWING},
    **{name: "Invalid alignment, or size that is not a multiple of it" for name in ALIGNMENTS.values()},
}

STACK, POISON = "stack-buffer-overflow", "use-after-poison"
# AddressSanitizer's name for each shadow byte, and the class of asancol that it makes finer.
COARSE = {"STACK": STACK, "GLOBAL": "global-buffer-overflow", "USER": POISON}
HEAP_REDZONE = 0xfa
BY_SHADOW = {it.byte: (it.class_name, COARSE.get(it.kind, it.class_name)) for it in SHADES}
# A recorder has poison for all that is no block. What has another class of asancol's is never only poisoned.
NOT_POISONED = {"heap-use-after-free"}

NEGATIVE = 1 << 63

# What a report of a free says, as AddressSanitizer does.
ATTEMPTS = {
    "double-free": "attempting double-free",
    "bad-free": "attempting free on address which was not malloc()-ed",
}


def has_negative_size(fault: Fault) -> bool:
    """Whether an access was a call with a size that is negative, seen as a signed number."""
    return bool(fault.call) and fault.size >= NEGATIVE


def class_of(verdict: str, access: str, bad: int, fault: Fault) -> str:
    """Returns the name of a bad event. The verdict is the checker's: a shadow byte that is against it, as after a race,
    changes nothing."""
    if has_negative_size(fault):
        return NEGATIVE_SIZE
    if access not in ("load", "store"):
        return verdict
    if verdict == POISON and is_past_block(fault, bad):
        return "heap-buffer-overflow"
    name, coarse = BY_SHADOW.get(shadow_byte(fault, bad), (verdict, verdict))
    if verdict == POISON and name == BY_SHADOW[HEAP_REDZONE][0] and is_in_block(fault, bad):
        return verdict  # the redzone is of what came there later
    agrees = verdict == coarse or (verdict == POISON and name not in NOT_POISONED)
    return name if agrees else verdict


def is_in_block(fault: Fault, bad: int) -> bool:
    """Whether a byte is in the block that is known of it, which may be freed."""
    return fault.block > 0 and fault.block <= bad < fault.block + fault.block_size


def is_past_block(fault: Fault, bad: int) -> bool:
    """Whether a byte is in memory of the allocator that is in no block: a program poisons parts of its blocks."""
    is_heap = fault.block > 0 and fault.variable == VARIABLE_NONE
    return is_heap and not fault.block <= bad < fault.block + fault.block_size


def shadow_byte(fault: Fault, bad: int) -> int:
    """Returns what the shadow was at a byte; or at the next granule, if a part of its own is addressable. 0 if it was
    not kept."""
    at = (bad - fault.shadow_start) // GRANULE
    if not 0 <= at < len(fault.shadow) - 1:
        return 0
    return fault.shadow[at + 1] if 0 < fault.shadow[at] < GRANULE else fault.shadow[at]
