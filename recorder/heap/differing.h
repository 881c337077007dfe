/* The shadow of a block beside the notes on it. Compiled code trusts the shadow, and so does lean recording: a program
   that has overwritten it has accesses that nobody sees, and others that are taken for bad.

   Called: by stream/watched.c (`above`, stream/state.h), at a bad access or free in lean recording, in the thread
   that has made it; in a handler only if that has not interrupted the allocator. No lock: the notes are read before the
   shadow and after it. Nothing is written. */
#ifndef ASANCOL_DIFFERING_H
#define ASANCOL_DIFFERING_H

#include <stdint.h>

#include "stream/state.h"

/* Of the block whose span has an address, live or held. Whichever its size, at most a dozen granules are looked at. */
struct difference heap_find_difference(uint64_t address);

#endif
