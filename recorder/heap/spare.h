/* For a signal handler whose thread was interrupted in the allocator: memory that is no block, at addresses that are
   never given again.

   Called: spare_take by allocating.c and entering.c, in a handler that was not let in; is_spare, spare_size and
   spare_drop by allocating.c, in any thread, for a pointer that it has. No lock: only `heap.spare_used` is shared,
   an atomic that grows. */
#ifndef ASANCOL_SPARE_H
#define ASANCOL_SPARE_H

#include <stdbool.h>
#include <stddef.h>

#include "base/platform.h"
#include "heap/arena.h"

enum { SPARE_HEADER = 16, SPARE_PIECE = PAGE - 2 * SPARE_HEADER };

static inline bool is_spare(const void *pointer)
{
    return arena_is_found() && (uintptr_t)pointer - (uintptr_t)arena.spare < SPARE_BYTES;
}

/* Zeros; null: there is no memory. */
void *spare_take(size_t size, size_t alignment);
/* As it was asked for. */
size_t spare_size(const void *pointer);
/* Gives its memory back to the system, and not its addresses. */
void spare_drop(void *pointer);

#endif
