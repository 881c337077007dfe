/* The room that a stream has, as it grows.

   Called: has_room by places.c, in any thread, also in a handler, without the lock; growing_to with the stream's
   lock, by places.c in the thread whose record needs the room, and by switching.c and ending.c: these may run in a
   handler too. */
#ifndef ASANCOL_GROWING_H
#define ASANCOL_GROWING_H

#include <stdatomic.h>
#include <stdbool.h>
#include <stdint.h>

#include "stream/state.h"

/* After how many bytes a socket is given what there is. */
enum { PIECES_STEP = 1 << 16 };

/* Whether bytes can be stored up to this offset. */
static inline bool has_room(uint64_t end)
{
    return atomic_load_explicit(&STREAM->ready, memory_order_acquire) >= end;
}

/* Makes room up to this offset. False: there is none, and the recording has ended. */
bool growing_to(uint64_t end);

#endif
