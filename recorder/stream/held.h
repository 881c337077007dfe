/* A stream of which the hub has nothing yet, since there is nothing to report: the run has not begun (dormant.h). Its
   connection is there, and with the first thing to say it goes on as any other.

   Called: held_is_wanted and held_begin by opening.c; held_send by that, sending.c, ending.c and keeping.c,
   held_is_quiet by sending.c, ending.c and switching.c: in the thread that has the stream's lock, or that starts the
   stream, also in a handler; held_end by process/process.c, without it. */
#ifndef ASANCOL_HELD_H
#define ASANCOL_HELD_H

#include <stdbool.h>

/* Whether the stream that is being opened is to be held: if it is the first of a process that has such a run. */
bool held_is_wanted(void);
/* From now on it is. */
void held_begin(void);
/* Whether it is held, and has nothing to say so far. */
bool held_is_quiet(void);
/* If it is held, it is sent now: the process may be unable to later. It takes the stream's lock, if it is free. */
void held_end(void);
/* Sends the first bytes of a stream, and what stands beside it. Answers null, or what went wrong. */
const char *held_send(void);

#endif
