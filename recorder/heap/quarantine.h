/* In order: a freed block waits in the quarantine as long as the checker holds it, which counts the same bytes in the
   same order. Then its slot or run is reused: slots that were freed last come first.

   Called: heap_order and quarantine_release_oldest by snapshot.c, quarantine_hold and quarantine_release by
   freeing.c, the others by allocating.c: in the thread that has all (blocks.h), which is the lock; also in a handler
   that was let in. heap_release_down_to_bound (heap.h) is here too. */
#ifndef ASANCOL_QUARANTINE_H
#define ASANCOL_QUARANTINE_H

#include "heap/blocks.h"

/* A slot or a run; or null: there is no memory. */
struct block *quarantine_take_slot(unsigned class, uint32_t slot_size);
struct block *quarantine_take_run(size_t count);
/* A freed block, which is bad already. */
void quarantine_hold(struct block *block);
/* A block's slot or run may be reused. It is not in the quarantine: the checker does not know it. */
void quarantine_release(struct block *block);
/* The same for the block that is in the quarantine for longest. */
void quarantine_release_oldest(void);
/* Enough entries for this many bytes of spans. */
void quarantine_release_down_to(uint64_t bound);

/* From now on all is in order: freed blocks with memory are held. */
void heap_order(void);

#endif
