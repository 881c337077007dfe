/* A bad access or free with its statements: records that have one place, so nothing comes between them. In lean
   recording each begins a history, in which nothing else stands. In a full one there is the history of the blocks, and
   further statements are taken back after the access.

   Called: by watched.c, in the thread of the access or free, also in a handler, with or without the allocator's lock.
   No lock: a place is taken by one compare-and-swap of the cursor. */
#ifndef ASANCOL_GROUP_H
#define ASANCOL_GROUP_H

#include <stdbool.h>
#include <stdint.h>

#include "stream/holes.h"
#include "stream/places.h"
#include "stream/saying.h"
#include "stream/state.h"
#include "stream/windows.h"

enum { MOST_GROUP = ANEW_LENGTH + REGION_LENGTH + FREE_LENGTH + POISON_LENGTH + ACCESS_LENGTH };

struct group {
    unsigned char bytes[MOST_GROUP];
    struct shape shape;
    unsigned number; /* of the access or free in it, from 1 */
    bool is_lean;
};

/* The segment in which something is looked at. A window alone comes again after some others. */
struct moment {
    unsigned segment, window;
};

static inline struct moment moment_now(void)
{
    struct moment now = {.segment = atomic_load(&STREAM->segment)};
    now.window = atomic_load(&STREAM->window);
    return now;
}

static inline bool is_moment(struct moment moment, uint64_t cursor)
{
    return window_of((uint32_t)cursor) == moment.window && atomic_load(&STREAM->segment) == moment.segment;
}

/* Where a record lies, or null; and the number of its event. */
struct place {
    unsigned char *at;
    uint64_t event;
};

/* Of an access, or of a free, which has no width; null: nothing is stated. */
void group_make(struct group *group, unsigned code_and_width, uint64_t address, const struct found *found);
/* A good access of a full recording: it stands anywhere, or is left out by a thread that sleeps. */
void group_record_good(unsigned code_and_width, uint64_t address);
/* Records a group, with this in the index, or nothing (0). The statements of this thread's last group are not repeated
   if nothing was recorded since. TAKING_AGAIN: the stream is in its next segment. */
enum taking group_record(const struct group *group, uint32_t entry, struct moment moment, bool is_of_heap,
                         struct place *place);

#endif
