"""The meaning of each class of reports and crashes, for developers who see it for the first time."""

from __future__ import annotations

import re

from .class_names import CLASSES
from .crashes import CRASH_CLASSES
from .shade_table import SHADES

# What a developer should look at, in a sentence, for each class whose name matches. The first match counts.
ADVICE = (
    (r"use-after-free", "Compare the stack of the free with that of the access: either the block was freed too "
     "early, or the pointer at the access was kept too long."),
    (r"double-free", "Compare the stacks of both frees, and let only one of them own the block."),
    (r"use-after-scope", "Find where the address of the variable is kept beyond the braces round its declaration: "
     "declare it outside of them, or keep its value."),
    (r"use-after-return", "Find where the function hands out the address of its variable, by its result or through a "
     "pointer: return the value, or allocate the object."),
    (r"^indirect-leak", "Look at the leaked block that points to this one first: whatever frees that has to free "
     "this one before it."),
    (r"leak", "Follow the block from its allocation to where its last pointer is overwritten or goes out of scope: "
     "it should be freed before."),
    (r"overlap", "Compare the source, the destination and the size of this call: use memmove if they may overlap, or "
     "else find out why the destination is not separate."),
    (r"(calloc|array|pvalloc)-overflow", "Find where the arguments of this call come from: the size that they ask "
     "for is larger than any can be, as a negative number makes it."),
    (r"alignment", "Look at the alignment of this call: it has to be a power of two, for posix_memalign also a "
     "multiple of the size of a pointer, and for aligned_alloc the size has to be a multiple of it."),
    (r"too-big", "Find where the size of this call comes from: a negative number becomes a very large size, and so "
     "does a subtraction that goes below 0."),
    (r"out-of-memory", "Find where the size of this call comes from, and which blocks the program still holds: it "
     "has reached the memory that it may have."),
    (r"annotate", "Look at the arguments of this call: the old and the new ends of the elements have to be between "
     "the begin and the end of the container's memory."),
    (r"pointer-pair", "Find where both pointers come from: only those into one object, or just past its end, may be "
     "compared or subtracted."),
    (r"odr", "Find both definitions of the variable, and rename one or make it static or hidden: all modules use the "
     "same one, although they may expect another size or value. ASAN_OPTIONS=detect_odr_violation=1 leaves out those "
     "of one size, as where two libraries have the same source."),
    (r"init.*-order", "Find the initialiser in the first stack, and make the global that it uses a static variable "
     "of a function: the order in which files are initialised is undefined."),
    (r"bad-shadow", "Find the code that wrote to the checker's own memory: through a wild pointer, or in a stack that "
     "is larger than its block. Other errors may be missing or wrong."),
    (r"usable_size|allocated_size", "Find where the pointer of this call comes from: it has to be one that malloc "
     "returned and that is not freed yet."),
    (r"stack-overflow", "Look for a function that comes again and again in the stack, and for large variables on the "
     "stack."),
    (r"container", "Compare the index or iterator with the size of the container: there is memory up to its "
     "capacity, but no element."),
    (r"poison", "Find where the program poisons this memory, such as in a memory pool: the access is too late, or "
     "has to wait until it is unpoisoned."),
    (r"intra-object", "Compare the index or length at the access with the size of the field: the object goes on "
     "behind it, but the field does not."),
    (r"underflow", "Look for an index below 0, or for a pointer that goes back beyond the start of the variable."),
    (r"dynamic-stack", "Compare the index or length at the access with the size given to alloca or to the "
     "declaration of the array."),
    (r"heap-buffer-overflow", "Compare the index or length at the access with the size given to the allocation: "
     "often an element or the final zero byte has no room."),
    (r"overflow", "Compare the index or length at the access with the declared size of the variable: often an "
     "element or the final zero byte has no room."),
    (r"unknown", "Find where the pointer at the access comes from: it leads to no block and no variable."),
    (r"^new-delete", "Compare the type at the delete with that at the new: often an object is deleted as its base "
     "class, which has no virtual destructor."),
    (r"dealloc|mismatch", "Compare the function that frees the block with the one that allocated it: free belongs to "
     "malloc, delete to new, and delete[] to new[]."),
    (r"bad-free", "Find where the pointer of the free comes from: it has to be the one that malloc returned, not one "
     "into a block, to a variable or to memory of another allocator."),
    (r"bad-malloc", "Look for a second allocator, and for writes beyond a block just before this call: the block is "
     "where none can be, such as in another live one."),
    (r"^negative-size", "Find where the size of this call comes from: a subtraction went below 0, or a function that "
     "failed returned -1."),
    (r"^SEGV$", "Find where the pointer comes from: an address near 0 is a null pointer plus the offset of a "
     "member."),
    (r"^BUS$", "Look whether a mapped file was truncated, or the address is misaligned for this instruction."),
    (r"^ILL$", "Look for a function that ends without returning a value, code marked unreachable, and calls through "
     "a wrong function pointer; otherwise the code was built for another processor."),
    (r"^FPE$", "Find where the divisor comes from, and with integers look also for the smallest number divided by "
     "-1."),
    (r"^TRAP$", "Look for a breakpoint that was left in the code, and on ARM as for `ILL`."),
    (r"^SYS$", "Allow this system call in the sandbox, or avoid it."),
    (r"^ABRT$", "Read what the program printed before it aborted; if a test expects this, suppress it."),
)


def what_is(name: str) -> str:
    return CLASSES.get(name) or CRASH_CLASSES.get(name) or name


def advice_for(name: str) -> str:
    return next((text for pattern, text in ADVICE if re.search(pattern, name)),
                "Compare the access in the first stack with what the others say of its memory.")


# Where a bad byte is, by its shadow byte.
SHADOWS = {f"{it.byte:02x}": it.where for it in SHADES}


def shadow_text(shadow: str) -> str:
    """Returns a shadow byte in words."""
    if shadow in SHADOWS:
        return SHADOWS[shadow]
    count = int(shadow, 16) if re.fullmatch("0[0-7]", shadow) else 8
    return f"only the first {count} of its 8 bytes may be accessed" if 0 < count < 8 else f"its shadow byte is {shadow}"
