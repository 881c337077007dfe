/* From one segment to the next.

   Called: switching_go_on by places.c and watched.c, in any thread, also in a handler that has not interrupted the
   allocator: it takes the allocator's lock, unless this thread has it, and the stream's. switching_go_full by
   process/process.c with the allocator's, undisturbed: it takes the stream's.
   switching_reserve by places.c with both, in the thread that takes the snapshot; switching_takes_snapshot there, and
   stream_snapshot_room by process/process.c, without a lock. */
#ifndef ASANCOL_SWITCHING_H
#define ASANCOL_SWITCHING_H

#include <stdbool.h>
#include <stdint.h>

#include "common/format.h"

/* How many events the snapshot that a stream begins with may have. */
uint64_t stream_snapshot_room(void);
/* Whether this thread takes the snapshot at the beginning of a segment just now. */
bool switching_takes_snapshot(void);
/* The place of a record of a snapshot, or null. */
unsigned char *switching_reserve(unsigned length);
/* Goes on in the next segment, if there is no room for this many more events in this one, or if its connection is
   closed, and no other thread has done so. False: another thread is turning the stream off just now. Any thread, with
   all of the allocator. */
bool switching_go_on(uint64_t events);
/* From lean to full recording: what stands is recorded before anything else, in this segment if that has nothing yet
   and its checker holds no more, and else in the next one. False: the stream is not on. */
bool switching_go_full(void);

#endif
