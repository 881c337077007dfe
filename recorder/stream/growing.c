/* STREAM->ready is how far there is room. It grows by steps, once the file or the window has them. */
#include "stream/growing.h"

#include "stream/locked.h"
#include "stream/keeping.h"
#include "stream/sending.h"
#include "stream/windows.h"

/* One step. Answers what went wrong, or null. */
static const char *grow(void)
{
    uint64_t next = atomic_load(&STREAM->ready) + (is_file() ? FILE_STEP : PIECES_STEP);
    if (!is_file())
        sending_try();
    const char *why = is_file() ? output_extend(&locked.trace, length_to(next)) : sending_push(false);
    if (why == NULL)
        atomic_store_explicit(&STREAM->ready, next, memory_order_release);
    return why;
}

bool growing_to(uint64_t end)
{
    while (!has_room(end)) {
        const char *why = grow();
        if (why != NULL) {
            keeping_give_up(why);
            return false;
        }
    }
    return true;
}
