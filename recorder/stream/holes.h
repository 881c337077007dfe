/* Records that are whole, and holes: records that were begun and will never be written, as when a signal handler left
   by a jump.

   Called: holes_fill by places.c, and holes_fill_again by group.c, in the thread whose place that is, also in a
   handler, without the stream's lock; holes_check by ending.c, switching.c, keeping.c and, without patience, sending.c,
   with it and perhaps the allocator's, in any thread, also in a handler. A place that is filled is won by one
   compare-and-swap of its code, so its thread may come back to it at any time. */
#ifndef ASANCOL_HOLES_H
#define ASANCOL_HOLES_H

#include <stdint.h>

#include "stream/state.h"

/* Records side by side that have one place, by their lengths. */
enum { MOST_RECORDS = 5 };
struct shape {
    unsigned char lengths[MOST_RECORDS];
    unsigned char count, length; /* of all */
};

/* Puts records there that say nothing. */
void holes_fill(unsigned char *at, const struct shape *shape);
/* The same without the code of the first: another thread has put one there, into the place of this thread's records,
   whose bytes may stand there now. */
void holes_fill_again(unsigned char *at, const struct shape *shape);

static inline struct shape shape_of_one(unsigned length)
{
    return (struct shape){.lengths = {(unsigned char)length}, .count = 1, .length = (unsigned char)length};
}

/* Goes on over the records that are whole, up to `end`, which is a border. With patience it waits for others to finish
   theirs, and then fills holes. Answers how many these were. */
unsigned holes_check(uint64_t end, uint64_t limit, enum patience patience);

#endif
