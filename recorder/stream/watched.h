/* Records that are bad, or may be: with a fault beside the stream.

   Called: record_watched_access by record.h without a lock; record_bad_free by heap/freeing.c with the allocator's,
   and by heap/allocating.c and process/halt.c without, in the thread of the access or free, also in a handler. No lock
   here; places.h takes the stream's, and for a next segment the allocator's. */
#ifndef ASANCOL_WATCHED_H
#define ASANCOL_WATCHED_H

#include <stdint.h>

#include "base/platform.h"
#include "stream/access.h"

/* An access, or a piece of `whole`, to a stream that is watched, or where that does not state what the shadow says.
   Answers the number of its event, if that is a report that may be shown now; or 0. */
uint64_t record_watched_access(unsigned code_and_width, uint64_t address, uintptr_t caller, struct access *whole)
    OWN_NAME(record_watched_access);
/* By this function of the library. */
void record_bad_free(uint64_t address, uintptr_t caller, const char *call);

#endif
