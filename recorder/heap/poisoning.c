/* heap.poisoned counts the units that have become poison: the next ones up to arena.committed are not yet. */
#include "heap/poisoning.h"

#include "shadow/shadow.h"
#include "shadow/unused.h"
#include "stream/record.h"

void poison_range(uintptr_t start, uintptr_t end)
{
    if (heap.is_unpainted || start >= end)
        return;
    if (!shadow_is_of_file(start) || !shadow_is_of_file(end - 1))
        shadow_poison(start, end - start, SHADE_USER);
    record_unused(start, end - start);
}

/* Whole regions that begin in new memory need no shadow of their own, if their addresses are handed out once. */
static void show_regions(uint32_t from, uint32_t to)
{
    uint32_t first = (from + REGION_UNITS - 1) / REGION_UNITS;
    if (heap.is_unpainted || heap_is_ordered())
        return;
    for (uint32_t region = first > 0 ? first : 1; region * REGION_UNITS < to; region++)
        unused_show((uintptr_t)unit_start(region * REGION_UNITS));
}

void poison_new(uintptr_t hole, uintptr_t hole_end)
{
    uint32_t from = heap.poisoned, to = arena.committed;
    if (LIKELY(from == to))
        return;
    show_regions(from, to);
    /* Region by region: the shadow of one may be shown, and that of the next may not. */
    for (uint32_t next; from < to; from = next) {
        next = (from / REGION_UNITS + 1) * REGION_UNITS;
        next = next < to ? next : to;
        uintptr_t start = (uintptr_t)unit_start(from), end = (uintptr_t)unit_start(next);
        poison_range(start, hole < end ? hole : end);
        poison_range(hole_end > start ? hole_end : start, end);
    }
    heap.poisoned = arena.committed;
}
