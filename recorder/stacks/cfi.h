/* Call frame information: what compilers write in .eh_frame of each instruction, so that an exception finds its way
   from there to the caller. It leads through code without frame pointers, such as that of libraries.

   Called: cfi_find by unwinding.c, for an instruction that has no kept rule, in any thread, also in a handler, with
   or without locks. No lock here: there is no state, and the C library's _dl_find_object takes none. IS_OWN_FRAME
   stands in process/threads.c and calls/. */
#ifndef ASANCOL_CFI_H
#define ASANCOL_CFI_H

#include <stdint.h>

#include "base/platform.h"

enum cfi_kind {
    CFI_UNKNOWN,  /* nothing is said that could be followed */
    CFI_LAST,     /* nobody has called this */
    CFI_BY_STACK, /* the frame ends `offset` bytes above the stack pointer */
    CFI_BY_FRAME, /* above the frame pointer */
    CFI_POINTER,  /* the frame pointer leads to the caller's, with the address after the call beside it */
    CFI_SAVED,    /* where it ends stands `offset` bytes above the frame pointer */
    CFI_SIGNAL,   /* the end of a handler: the system has called that */
};

/* The caller's frame pointer: this many words below the end of the frame, or one of these. */
enum {
    CFI_FRAME_KEPT = 0,     /* in its register */
    CFI_FRAME_LINKED = MOST_FRAME_WORDS - 1, /* where the frame pointer leads to */
    CFI_FRAME_LOST = MOST_FRAME_WORDS,       /* nobody knows */
};

enum {
    CFI_OWN = 1,    /* the recorder's own code */
    CFI_MAIN = 2,   /* a part of `main` */
    CFI_CALLED = 4, /* for who keeps the rule */
};

/* How to go on from an instruction to the caller: the address after its call lies below the end of the frame; if the
   processor has a register for it, `address` words below, or in that register if this is 0. */
struct cfi_rule {
    RULE_PARTS
    int32_t offset;
};

_Static_assert(sizeof(struct cfi_rule) == sizeof(uint64_t), "it is kept as one word");

/* The rule of an instruction. */
struct cfi_rule cfi_find(uintptr_t instruction);

/* Stands in a function of the recorder that calls code which may call the program, or allocate. Stacks pass over it.
   It is an instruction of its description: the size of arguments, which says nothing in C, as no compiler would have
   it. */
#define IS_OWN_FRAME DESCRIBE(".cfi_escape 0x2e, 0xad, 0x4f")
#define CFI_OWN_MARK 10157

#endif
