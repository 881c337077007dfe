/* What the lock of the stream guards (state.h): where it is written, and how far it was gone over.

   Called: nothing but length_to. The files of stream/ read and write `locked` in whichever thread has the lock, which
   stream_lock (state.h) takes; before there is a stream, in the thread that starts it. */
#ifndef ASANCOL_LOCKED_H
#define ASANCOL_LOCKED_H

#include <stdbool.h>
#include <stdint.h>

#include "stream/output.h"

extern struct locked {
    bool has_side;
    bool is_held;            /* nothing of it was sent yet (held.h) */
    unsigned window;         /* in which both lie */
    uint64_t segment;        /* how many came before this one */
    uint64_t start;          /* the offset at which the stream begins */
    uint64_t checked;        /* up to here the records were seen to be whole, */
    uint64_t checked_events; /* their number */
    uint64_t generation;     /* of modules, as the loader has counted them just before an exit or exec; or 0 */
    bool takes_snapshot;     /* what a segment begins with, just now, */
    bool is_overfull;        /* for which there was no room */
    bool goes_on;            /* after the data written at an exit */
    bool said_unseen;        /* that it gets no close, since nothing was seen */
    struct output trace;
    struct output side; /* a file, or memory */
} locked;

/* How long the stream is up to an offset. */
static inline uint64_t length_to(uint64_t offset)
{
    return offset - locked.start;
}

#endif
