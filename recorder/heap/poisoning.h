/* Memory that was never part of a block's span is poison, so an access is found however far from a block it is: memory
   becomes poison when the arena gets it.

   Called: poison_new by shards.c with central, or by allocating.c with all (blocks.h); poison_range by that, and by
   allocating.c and freeing.c without central, for memory that the thread has just taken or is freeing: in the thread
   that is in the allocator, also in a handler that was let in. They paint, and record by regions.h: no lock is taken
   here. */
#ifndef ASANCOL_POISONING_H
#define ASANCOL_POISONING_H

#include "heap/blocks.h"

/* A range of memory, which may be empty. */
void poison_range(uintptr_t start, uintptr_t end);
/* What the arena has got since the last time, except a part of it, which may be empty. */
void poison_new(uintptr_t hole, uintptr_t hole_end);

#endif
