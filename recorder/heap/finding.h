/* The circumstances of a bad access or free in the allocator's memory: the shadow bytes, as the collector has them, and
   the block that has left them. By the notes on blocks, which other threads may be changing, or this one before a
   signal came: so the answer may be no block that there ever was, and saying.c asks whether it has left those bytes.

   Called: by stream/watched.c (`above`, stream/state.h), in the thread of the access or free, also in a handler, with
   or without the allocator's lock. Nothing is written. */
#ifndef ASANCOL_FINDING_H
#define ASANCOL_FINDING_H

#include <stdbool.h>
#include <stdint.h>

#include "stream/saying.h"

/* The granule and its shadow bytes are filled in. */
void heap_find_state(struct found *found);
/* The block that is freed there again, if there was one. False: it is in use. */
bool heap_find_freed(uint64_t address, struct found *found);

#endif
