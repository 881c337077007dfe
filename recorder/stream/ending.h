/* The end of a stream: at its limit, at an exit, at the end by a signal, and of a segment.

   Called: stream_end and stream_close by process/process.c, in the thread that ends the process or execs, also in a
   handler; ending_at_limit by places.c, in the thread whose record is one too many, also in a handler. These three
   take the lock. stream_has_one_end by start/start.c, without it. The rest by this file, switching.c and
   suspending.c, with it. */
#ifndef ASANCOL_ENDING_H
#define ASANCOL_ENDING_H

#include <stdbool.h>
#include <stdint.h>

#include "common/format.h"
#include "stream/keeping.h"

/* How a stream ends whose cursor this was: with FINISH_AT_LIMIT if events were left out. In a stream that has segments
   an event past the limit is not lost: its thread writes it in the next one. */
enum finish ending_of(uint64_t cursor, enum finish finish);
/* Writes what stands after the last record, and leaves nothing after that. The lock is held and the cursor off. The
   ending is noted before the last bytes are sent: a hub that has all of them finds it. False: it was lost. */
bool ending_at(uint64_t end, uint64_t limit, enum finish finish, enum ending ending, int number);
/* The event whose record would begin here is one too many. The records before it get their room first: other threads
   are writing them. */
void ending_at_limit(uint64_t end);
/* In a segment that begins while the process exits: writes the close, and goes on. The lock is held and the stream is
   switching. */
void ending_close_again(void);
/* A stream whose exit had begun goes on after an exec that failed. The lock is held and the stream is suspended. */
void ending_go_on_closing(void);

/* Turns the stream off and ends it, with or without a close: at an exit, an exec, or the end by a signal, which has a
   number. The last is in a handler, which does not wait for the lock for ever. */
void stream_end(enum finish finish, enum ending ending, int number);
/* At an exit: writes what stands at the end, and goes on, since code that is recorded may still run. `is_last`: none
   does, except other threads. Then a socket gets its close, unless a hub can do without. The generation is that of
   modules, as the loader counts them. */
void stream_close(bool is_last, uint64_t generation);
/* Whether the close will be sent then, after which nothing can come. */
bool stream_has_one_end(void);

#endif
