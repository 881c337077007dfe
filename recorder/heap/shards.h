/* Going forward: each thread has a shard, and no address is handed out twice.

       shard             unit (64 KiB, a slab)
       slabs[class] ---> [slot|slot|slot|           ]   open: the shard takes its slots in a row
                         [x   |x   |slot|x   |x   |x]   closed; x is freed for good. Pages without a live block go back
                         [                          ]   retired: memory and shadow went back; notes and stacks stay
                                                        forgotten: the notes went back too, the oldest first

   A free marks the block, and counts down the rest of its unit: nobody waits, and nothing is shared but that count.
   Retired memory stays bad in the shadow (shadow/unused.h), so each later use is found.

   Pages of freed blocks that can't go back, since live ones lie beside them, are dead. If they are more than the bound
   of the quarantine, free slots of the oldest such units are reused, and the stream says so
   (side_note_reuse).

   Called: shard_take_slot and shards_common by allocating.c, with forward_take_run and forward_take_far; forward_bury
   and is_kept_free by freeing.c: in the thread that is in this shard, or has all (blocks.h), also in a handler that was
   let in. No further lock is held; central is taken here where units are. shards_give_back by numbers.c, and
   shards_stop by quarantine.c, with all. By entering.c shard_take and shard_give with the gate, and shards_are_left in
   a forked child. */
#ifndef ASANCOL_SHARDS_H
#define ASANCOL_SHARDS_H

#include "heap/placing.h"

/* A shard for a thread, or null: there is no memory. And back. The gate is held, or there is one thread. If the thread
   will not give it back, its number; else 0. */
struct shard *shard_take(int thread);
void shard_give(struct shard *shard);
/* After a fork no thread has any other than this one. */
void shards_are_left(struct shard *own);

/* That of who has all, and no shard. */
struct shard *shards_common(void);

/* The notes on a slot, and where it begins. Null: there is no memory. */
struct slot {
    struct block *block;
    uintptr_t start;
};

struct slot shard_take_other(struct shard *shard, unsigned class, uint32_t slot_size);

/* Where a slot of this size begins: what the notes on its unit say, without a look at them. */
static inline uintptr_t start_in_slab(const struct block *slot, uint32_t slot_size)
{
    return (uintptr_t)unit_start(unit_of(slot)) + lead_of_slab(slot_size) + (size_t)slot_of(slot) * slot_size;
}

/* A slot of a class, of whoever is in this shard. */
static inline struct slot shard_take_slot(struct shard *shard, unsigned class, uint32_t slot_size)
{
    struct block *free = shard->free[class];
    if (free == NULL)
        return shard_take_other(shard, class, slot_size);
    shard->free[class] = free->next;
    shard->free_bytes[class] -= slot_size;
    return (struct slot){free, start_in_slab(free, slot_size)};
}

/* Of each class. */
enum { MOST_FREE_BYTES = 4 * UNIT };

/* If nothing is recorded, the slot may be the next one that is handed out. False: it is no slot, or enough are kept. */
static inline bool is_kept_free(struct shard *shard, struct block *block, uint32_t unit)
{
    uint32_t slot_size;
    if (!heap.is_unpainted || shard == NULL || arena.units[unit].kind != UNIT_SLAB)
        return false;
    unsigned class = class_of(arena.units[unit].slot_size, &slot_size);
    if (shard->free_bytes[class] + slot_size > MOST_FREE_BYTES)
        return false;
    shard->free_bytes[class] += slot_size;
    SET_NOTE(block->next, shard->free[class]);
    shard->free[class] = block;
    return true;
}

/* A run of units, which are poison unless it is big; or null. */
struct block *forward_take_run(size_t count);
/* One whose second unit begins with a multiple of this alignment; also if it is in order. */
struct block *forward_take_far(size_t count, size_t alignment);
/* The block of this unit is freed for good: its shadow says so, and its notes. In this shard, or with all if that is
   null. */
void forward_bury(struct shard *shard, struct block *block, uint32_t unit);
/* Memory that waits to be given back. With all. False: there is none. */
bool shards_give_back(void);
/* No more of it: what shards have open stays as it is. With all. */
void shards_stop(void);

#endif
