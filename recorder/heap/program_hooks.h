/* What the program wants to be called after each malloc and before each free (heap_add_hooks).

   Called: by allocating.c, in the thread that allocates or frees, also in a handler. No lock is held, so the program's
   functions may allocate. heap_add_hooks (heap.h) by interface/interface.c, in any thread, also in a handler. */
#ifndef ASANCOL_PROGRAM_HOOKS_H
#define ASANCOL_PROGRAM_HOOKS_H

#include <stdatomic.h>
#include <stdbool.h>
#include <stddef.h>

#include "base/platform.h"

extern _Atomic int hook_count;

static inline bool has_hooks(void)
{
    return UNLIKELY(atomic_load_explicit(&hook_count, memory_order_relaxed) != 0);
}

void hooks_after_malloc(const void *start, size_t size);
/* False: the program keeps the block, and nobody else is called. */
bool hooks_before_free(const void *start);

#endif
