/* The lock of what all shards take from and give to (blocks.h). Nobody waits for anything else while it is held.

   Called: by allocating.c, shards.c and retiring.c, in the thread that is in its shard or has all, and has not taken
   this lock. A handler that has interrupted it does not come here: it is not let in (entering.h), or closes the
   shards only if this lock is free (arena_changing). */
#ifndef ASANCOL_CENTRAL_H
#define ASANCOL_CENTRAL_H

#include "libc/library.h"
#include "heap/blocks.h"

/* A thread that is alone takes no lock. A jump from under it would leave it taken, so that counts as a change. */
static inline void central_take(void)
{
    if (library_is_alone() && atomic_load_explicit(&heap.central.state, memory_order_relaxed) == LOCK_FREE)
        return;
    arena_begin_change();
    lock_take(&heap.central);
}

static inline void central_give(void)
{
    if (atomic_load_explicit(&heap.central.state, memory_order_relaxed) == LOCK_FREE)
        return;
    lock_give(&heap.central);
    arena_end_change();
}

#endif
