/* heap.spare_used says how far the spare memory was given out. Each piece has whole pages, and its size before it. */
#define _GNU_SOURCE
#include "heap/spare.h"

#include <sys/mman.h>

#include "base/system.h"
#include "heap/blocks.h"

void *spare_take(size_t size, size_t alignment)
{
    if (arena.bytes == NULL || size > SPARE_BYTES || alignment > SPARE_BYTES)
        return NULL;
    /* Whole pages: two handlers, of two threads, then make none of them usable twice. */
    size_t bytes = (size + SPARE_HEADER + alignment + SYSTEM_PAGE - 1) / SYSTEM_PAGE * SYSTEM_PAGE;
    size_t first = atomic_fetch_add(&heap.spare_used, bytes);
    if (first + bytes > SPARE_BYTES || !arena_give_memory(arena.spare + first, bytes))
        return NULL;
    uintptr_t start = ((uintptr_t)arena.spare + first + SPARE_HEADER + alignment - 1) / alignment * alignment;
    ((size_t *)start)[-1] = size;
    return (void *)start;
}

size_t spare_size(const void *pointer)
{
    return ((const size_t *)pointer)[-1];
}

void spare_drop(void *pointer)
{
    unsigned char *start = pointer;
    size_t before = (uintptr_t)(start - SPARE_HEADER) % SYSTEM_PAGE + SPARE_HEADER;
    size_t bytes = (before + spare_size(pointer) + SYSTEM_PAGE - 1) / SYSTEM_PAGE * SYSTEM_PAGE;
    system_madvise(start - before, bytes, MADV_DONTNEED);
}
