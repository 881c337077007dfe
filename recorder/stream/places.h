/* The places of records: what remains to be done where the fast path (record.h) finds something unusual.

   Called: stream_wake by record.h, watched.c, findings.c and heap/freeing.c; record_too_late by record.h and watched.c;
   record_access_slowly by record.h; stream_reserve by regions.c; stream_open_group and stream_make_way_for by group.c:
   in any thread, also in a handler. The stream's lock is not held, except at a snapshot, whose thread gets its places
   by switching.c; it is taken here to wait for a thread that switches, to make room, to end or to switch. `is_of_heap`
   says that the allocator's is held. */
#ifndef ASANCOL_PLACES_H
#define ASANCOL_PLACES_H

#include <stdbool.h>
#include <stdint.h>

#include "base/platform.h"
#include "stream/holes.h"

/* Whether a stream that is off is on by now: nothing had started it, or another thread was switching. */
bool stream_wake(void) OWN_NAME(stream_wake);
/* An event that is not recorded, since the stream is off: if it has its close, and this is bad, something says so. */
void record_too_late(bool is_bad) OWN_NAME(record_too_late);
/* An access that has taken its place by this cursor. */
void record_access_slowly(uint64_t cursor, unsigned code_and_width, uint64_t address) OWN_NAME(record_access_slowly);
/* The place of a record of this many bytes, or null if none is recorded. `is_of_heap`: the allocator records it, and
   the thread has all of it, so that the stream may go on in its next segment here. */
unsigned char *stream_reserve(unsigned length, bool is_of_heap);
/* What came of it: a group of records has its place, or none; or the stream may be in another segment, so all is to be
   looked at again. */
enum taking { TAKING_DONE, TAKING_LEFT_OUT, TAKING_AGAIN };
/* For a group that has taken its place by this cursor, all of it before the limit. */
enum taking stream_open_group(uint64_t cursor, const struct shape *shape, bool is_of_heap);
/* A group of this many events does not fit before the limit, and has taken no place. */
enum taking stream_make_way_for(unsigned events, bool is_of_heap);

#endif
