/* Blocks that are given back.

   Called: free_in_shard by allocating.c in the shard, free_with_all by that and by entering.c, for what a handler
   has freed, with all (blocks.h): in the thread that frees, also in a handler that was let in. note_left_out, the
   only caller of wake_stream and count_left_out, there and by allocating.c. note_all_left_out by entering.c, in any
   thread, with all or without a lock: it adds to atomic counts. */
#ifndef ASANCOL_FREEING_H
#define ASANCOL_FREEING_H

#include <stdbool.h>

#include "heap/blocks.h"
#include "heap/families.h"
#include "heap/origin.h"
#include "stream/state.h"

enum freeing {
    FREEING_DONE,
    FREEING_BAD,      /* it is recorded, and goes no further */
    FREEING_NEEDS_ALL /* a shard is not enough to say what it is: nothing was done */
};

/* By whoever is in this shard, and by who has all. A call is `free`, `realloc` or `reallocarray`. */
enum freeing free_in_shard(struct shard *shard, uintptr_t address, struct origin from, const struct use *use);
enum freeing free_with_all(uintptr_t address, struct origin from, const struct use *use, const char *call);

/* Two steps of the next function. */
void wake_stream(void);
void count_left_out(struct shard *shard);

/* A malloc or a free that is not recorded one by one is counted, and a child that no fork has announced says so. */
static inline void note_left_out(struct shard *shard)
{
    if (UNLIKELY(!is_on()) && !atomic_load_explicit(&STREAM->is_idle, memory_order_relaxed))
        wake_stream();
    if (is_lean())
        count_left_out(shard);
}

/* The counts of shards are also counted beside the stream. At any time. */
void note_all_left_out(void);

#endif
