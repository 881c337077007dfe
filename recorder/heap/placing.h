/* Where blocks lie: how far apart, in slots of which size, and where in a slot or a run. Blocks lie as far apart as
   AddressSanitizer's.

   Called: by allocating.c, quarantine.c, retiring.c, shards.c and shards.h, in any thread, also in a handler; no
   lock: it only computes. place_in and slots_of read the notes on a slot or unit that the thread has. */
#ifndef ASANCOL_PLACING_H
#define ASANCOL_PLACING_H

#include <stdint.h>

#include "heap/blocks.h"

/* How far from a block of this size the next one is at least, in either direction. */
static inline size_t gap_for(size_t size)
{
    static const struct {
        uint32_t gap, end;
    } steps[] = {{2 * REDZONE, 1 << 9}, {128, 1 << 12}, {256, 1 << 14}, {512, 1 << 15}, {1024, 1 << 16}};
    for (size_t i = 0; i < sizeof steps / sizeof *steps; i++)
        if (size <= steps[i].end - steps[i].gap)
            return steps[i].gap;
    return 2048;
}

/* How much of the gap before the first block of a unit does not lie in the slot before it, as it does for the next. */
static inline size_t lead_for(size_t size)
{
    return gap_for(size) - (size_t)2 * REDZONE;
}

/* Slots. Up to FINE_END bytes there is a class for each 16 bytes, and then four for each doubling. */

enum { QUARTER_SHIFT = 8 };
_Static_assert(FINE_END == 4 << QUARTER_SHIFT, "by so much a quarter of it is shifted");

static inline unsigned class_of(size_t bytes, uint32_t *slot_size)
{
    if (bytes <= FINE_END) {
        *slot_size = (uint32_t)(bytes + FINE_STEP - 1) / FINE_STEP * FINE_STEP;
        return (*slot_size - MIN_SLOT_SIZE) / FINE_STEP;
    }
    unsigned doublings = (unsigned)__builtin_clz(FINE_END) - (unsigned)__builtin_clz((unsigned)bytes - 1);
    uint32_t size = (uint32_t)FINE_END << doublings, shift = QUARTER_SHIFT + doublings;
    uint32_t quarter = ((uint32_t)bytes - size - 1) >> shift;
    *slot_size = size + ((quarter + 1) << shift);
    return (FINE_END - MIN_SLOT_SIZE) / FINE_STEP + 1 + 4 * doublings + quarter;
}

/* How many bytes a block takes in its slot. */
static inline size_t room_for(size_t size, size_t alignment)
{
    size_t rounded = (size + ALIGNMENT - 1) / ALIGNMENT * ALIGNMENT;
    return rounded + alignment - ALIGNMENT + gap_for(size);
}

/* Before the first slot of a slab. */
static inline size_t lead_of_slab(uint32_t slot_size)
{
    return lead_for(slot_size - (size_t)2 * REDZONE);
}

/* The notes on a unit that becomes a slab of slots of this size. */
static inline struct unit slab_of(uint32_t slot_size)
{
    uint16_t lead = (uint16_t)lead_of_slab(slot_size);
    return (struct unit){.kind = UNIT_SLAB, .lead = lead, .count = slot_factor(slot_size), .slot_size = slot_size};
}

/* How many slots it has. */
static inline uint32_t slots_of(const struct unit *unit)
{
    return slots_in(UNIT - unit->lead, unit->count);
}

/* How many units a large block takes. */
static inline size_t units_for(size_t size, size_t bytes)
{
    return (lead_for(size) + bytes + UNIT - 1) / UNIT;
}

static inline uintptr_t rounded_up(uintptr_t address, size_t alignment)
{
    return (address + alignment - 1) & ~(alignment - 1);
}

/* Where a block begins in its slot or run. A large one begins with a page if its run has room for that: so it has
   memory for no more pages than it needs. */
static inline uintptr_t place_in(const struct block *block, size_t size, size_t alignment)
{
    uintptr_t start = (uintptr_t)slot_start(block);
    if (room_for(size, alignment) <= MAX_SLOT_SIZE)
        return rounded_up(start + REDZONE, alignment);
    uintptr_t end = start + (uintptr_t)arena.units[unit_of(block)].count * UNIT;
    uintptr_t first = start + lead_for(size) + REDZONE;
    uintptr_t at_page = rounded_up(first, alignment > PAGE ? alignment : PAGE);
    bool has_room = end - at_page >= rounded_up(size, ALIGNMENT) + gap_for(size) - REDZONE;
    return has_room ? at_page : rounded_up(first, alignment);
}

#endif
