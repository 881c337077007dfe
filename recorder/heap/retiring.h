/* What happens to units whose blocks are freed for good (shards.h).

   Called: by shards.c, and retiring_leave, retiring_undo and the questions about units by reusing.c, in the thread
   that is in its shard or has all (blocks.h), also in a handler that is let in (entering.h), for a unit of any
   shard. Lock: central where a function says so; the others take it here, so their caller has not; a question needs
   none. retiring_has by finding.c and differing.c, and retiring_forgot by finding.c and nearest.c, in any thread,
   also in a handler, with or without the allocator's lock. */
#ifndef ASANCOL_RETIRING_H
#define ASANCOL_RETIRING_H

#include "heap/blocks.h"

/* Nothing of a slab is left. It is given back with some others, or at once if the shard is null. */
void retire(struct shard *shard, uint32_t unit);
/* The same for a run, always at once. */
void retire_run(uint32_t unit);
/* Units that stay unused. Under central. */
void retiring_leave(uint32_t unit, uint32_t count);
/* What waits in a shard is given back. */
void retiring_flush(struct shard *shard);

/* Units that are retired and have notes, which may be used again, as a run or for a slab: this many, or `longer` ones
   if there are none; or 0. Under central. */
uint32_t retiring_take_back(uint32_t count, bool longer);
/* These count as retired no more: a slab or a run, or what has no notes. Under central. */
void retiring_undo(uint32_t unit);

/* A block of a unit was freed: at some counts it is looked at. */
void retiring_count(uint32_t unit);
/* A unit is closed for long: from now on it is looked at. */
void retiring_begin(uint32_t unit);
/* The oldest unit of a class whose free slots may be reused, which is counted as open; 0: there is none.
   Under central. */
uint32_t retiring_take_listed(unsigned class);

/* Whether all that this address is of was freed for good. At any time. */
bool retiring_has(uintptr_t address);
/* Whether nothing is noted of that any more: how many bytes round it all of this is true of, from a multiple of them
   on; or 0. */
size_t retiring_forgot(uintptr_t address);

/* How many units a run has that begins here; else 1. A shard may be making it a slab just now. */
static inline uint32_t units_at(uint32_t number)
{
    const struct unit *unit = &arena.units[number];
    return NOTE_NOW(unit->kind) == UNIT_RUN ? NOTE_NOW(unit->count) : 1;
}

/* Whether it is in the body of a run whose notes went back with the region in which it begins. Without a lock its count
   may still be one from before. */
static inline bool is_headless(uint32_t number)
{
    const struct unit *unit = &arena.units[number];
    uint32_t count = NOTE_NOW(unit->count);
    return NOTE_NOW(unit->kind) == UNIT_RUN_BODY && count < number
           && NOTE_NOW(arena.units[number - count].kind) == UNIT_NEW;
}

/* Whether the free of this block is over. */
static inline bool is_settled(const struct block *block)
{
    struct block now;
    now.all_bits = __atomic_load_n(&block->all_bits, __ATOMIC_ACQUIRE);
    return now.state == BLOCK_HELD && __atomic_load_n(&block->settled, __ATOMIC_ACQUIRE) == BLOCK_SETTLED;
}

/* Whether more is dead than the quarantine may hold. */
static inline bool dead_are_too_many(void)
{
    uint64_t dead = (uint64_t)atomic_load_explicit(&heap.dead, memory_order_relaxed) * PAGE;
    return dead != 0 && dead > atomic_load_explicit(&heap_bound, memory_order_relaxed);
}

#endif
