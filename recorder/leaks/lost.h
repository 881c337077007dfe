/* Blocks that are lost, by where they were allocated.

   Called: by leaks.c, in the thread that looks for leaks, maybe in a handler (leaks.h): lost_find with the loader's
   lock and the allocator's, between marking_begin and marking_end; other threads run again by then, and wait if they
   want to allocate. lost_forget without a lock. No lock is taken, and memory is the system's. */
#ifndef ASANCOL_LOST_H
#define ASANCOL_LOST_H

#include <stdbool.h>
#include <stddef.h>
#include <stdint.h>

#include "stacks/stacks.h"

/* All of one stack, and of one kind. */
struct lost_group {
    call_site call_site; /* with the thread of the first one */
    bool is_indirect;
    uintptr_t block; /* the first one, and its size */
    uint64_t size;
    uint64_t count, bytes;
};

struct lost {
    struct lost_group *groups; /* by what LeakSanitizer says first: those that are lost themselves, and the largest
                                  sum; of one sum by their first blocks, so that each run has the same order */
    size_t count, room;
};

/* Sums up the blocks that have no mark, or that of indirectly lost ones (marking.h). Without memory for it there are
   none; false then. */
bool lost_find(struct lost *lost);
/* Gives its memory back. */
void lost_forget(struct lost *lost);

#endif
