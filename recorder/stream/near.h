/* What lies nearest to a bad byte: a block, or a variable. It is described in the fault.

   Called: near_block by faults.c and findings.c, near_name_global by interface/odr.c, the others by faults.c: in any
   thread, also in a handler, with or without locks. No lock here: the allocator's notes are read without it
   (heap/nearest.c), and what may be gone by memory_read. */
#ifndef ASANCOL_NEAR_H
#define ASANCOL_NEAR_H

#include "libc/family.h"
#include "shadow/globals.h"
#include "stacks/frames.h"
#include "stacks/stacks.h"
#include "stream/lists.h"

/* The block that is nearest to an address, and not far from it, as the allocator finds it (arena_find_nearest). */
struct nearest {
    uintptr_t start;
    uint64_t size;
    struct call_sites call_sites;
    enum family family;
    bool is_forgotten; /* its notes are gone: it had at most this many bytes, or nothing is known if it has no start */
};

void near_block(struct list *list, uint64_t address, struct side_fault *fault);
void near_global(uint64_t address, struct side_fault *fault);
/* Puts "NAME FILE:LINE" of a global into a name that is zeros. */
void near_name_global(const struct global *global, char name[SIDE_NAME]);
/* The variable of a frame that is nearest, and the text of all of its variables. */
void near_variable(struct list *list, const struct frame *frame, uint64_t address, struct side_fault *fault);
/* An array of variable length, or an alloca. False: none is there. */
bool near_array(uint64_t address, struct side_fault *fault);

#endif
