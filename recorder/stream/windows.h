/* Where streams lie, and what stands beside them: in windows of two ranges of addresses, which are reserved once. The
   offset of a record counts from the start of the range, so it says of which stream the record is. A late store, by a
   thread that slept, meets plain memory, and not the stream that has come after.

   Called: windows_mend by keeping.c, in the handler of SIGBUS, in any thread, without a lock; window_of by places.c
   and group.h, in any thread, also in a handler, without one. The rest by opening.c and switching.c, with the
   stream's lock, or before there is a stream. */
#ifndef ASANCOL_WINDOWS_H
#define ASANCOL_WINDOWS_H

#include "common/format.h"
#include "stream/output.h"

enum { WINDOWS = 8, WINDOW_SHIFT = 29, SIDE_WINDOW_SHIFT = 27 };
#define WINDOW_BYTES ((uint64_t)1 << WINDOW_SHIFT)

/* By how much a file grows. */
#define FILE_STEP ((uint64_t)1 << 20)
#define STREAM_ROOM (MAX_STREAM_SIZE + FILE_STEP)

_Static_assert(STREAM_ROOM <= WINDOW_BYTES, "a stream has room in a window");
_Static_assert(WINDOW_BYTES * WINDOWS <= (uint64_t)1 << 32, "an offset has 32 bits");
_Static_assert(SIDE_ROOM <= (uint64_t)1 << SIDE_WINDOW_SHIFT, "so has what stands beside it");

/* Where the range of streams starts, once there was a stream. Null: there is no room for it. */
unsigned char *windows_start(void);
/* The window of a stream that is about to be opened. */
struct window windows_of_stream(unsigned number);
/* And of what stands beside it. */
struct window windows_of_side(unsigned number);

/* Puts a page of plain memory at an address in a window. False: it is in none. */
bool windows_mend(const void *address);

static inline unsigned window_of(uint32_t offset)
{
    return offset >> WINDOW_SHIFT;
}

#endif
