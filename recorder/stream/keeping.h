/* Keeping a stream whole: it has a right end whenever it ends, and where nothing more can be kept that is said.

   Called: with the stream's lock, in any thread, also in a handler: tail_length and tail_put by ending.c, tail_trim by
   that and switching.c, tail_take_close_away by ending.c and suspending.c, tail_leave and keeping_give_up_at by
   switching.c, keeping_give_up by growing.c, sending.c and suspending.c, and keeping_leave_out by ending.c. Without it:
   tail_follow and keeping_leave_out by places.c, stream_say_left_out by process/process.c; stream_stop, which takes it,
   by heap/, also where a handler jumps out of the allocator, and by process/process.c in a forked child: its caller is
   in the allocator or has locked it. stream_has_lost, by process/signals.c in a handler, needs none. */
#ifndef ASANCOL_KEEPING_H
#define ASANCOL_KEEPING_H

#include <stdbool.h>
#include <stdint.h>

#include "common/format.h"

/* What stands after the last record. */

/* With a close; without one; without one, and with an event more than the limit, since more events came. */
enum finish { FINISH_CLOSED, FINISH_OPEN, FINISH_AT_LIMIT };

/* How many bytes that is. */
unsigned tail_length(enum finish finish);
/* Puts it there. */
void tail_put(uint64_t offset, enum finish finish);
/* What has a close, and goes on, has none any more. */
void tail_take_close_away(void);
/* Puts the close after a record that is not written yet: once it is, the stream ends there. */
void tail_follow(uint64_t end);
/* Cuts the trace after the last record or the close. */
void tail_trim(uint64_t end, enum ending ending);
/* A late store, into a stream that has ended, meets plain memory. */
void tail_leave(void);

/* A recording that ends early, with a line that says why. */

/* No more is recorded. The stream ends after its last whole record, without a close. */
void keeping_give_up(const char *why);
/* The same for a stream that a thread was switching from, and that had this cursor. */
void keeping_give_up_at(uint64_t cursor, const char *why);
/* The same, if it is recording. */
void stream_stop(const char *why);
/* Whether this address, where there is no memory, is in a window: then plain memory takes the place of the file; and if
   it is that of the stream now, the recording has ended. In a handler of SIGBUS, which may have interrupted who has the
   lock. */
bool stream_has_lost(const void *address);

/* Counts an event that finds no place in the stream. */

void keeping_leave_out(void);
/* Says how many these were, if there were any. */
void stream_say_left_out(void);

#endif
