/* If the system has no more memory: whatever is freed for good may be used again.

   Called: by shards.c, in the thread that is in its shard or has all (blocks.h), also in a handler that was let in.
   Lock: central, which the caller has taken. */
#ifndef ASANCOL_REUSING_H
#define ASANCOL_REUSING_H

#include <stdbool.h>
#include <stdint.h>

/* This many retired units in a row, of any length, with notes or without; 0: there are none. Units for a slab have
   notes on all slots. They are unchanged, or a run. */
uint32_t reusing_take(uint32_t count, bool is_slab);

#endif
