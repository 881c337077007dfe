/* One checker for many small streams. The text of a stream follows from its bytes alone, as is proved: so streams of
   the same bytes are checked once in a run. Those that differ, and have ended, wait for each other and have one
   asancol. What that does not read to an end is checked again, for each segment by a checker of its own.

   Called: shared_take and shared_add_alone by held.c, shared_open by checkers.c, the rest by loop.c; in the one thread
   of asancol-run; no lock. */
#ifndef ASANCOL_RUN_SHARED_H
#define ASANCOL_RUN_SHARED_H

#include <stdbool.h>

#include "processes.h"

/* A stream of this many bytes is small: the header and the close. No event finds room in them. */
enum { SMALL_STREAM = HEADER_LENGTH + 1 };

/* Takes all of a small stream whose process has ended. False: it is not small. */
bool shared_take(struct segment *segment);
/* The bytes of a stream, as the input of a checker: a descriptor, or -1. */
int shared_open(const struct small_stream *stream);
/* When the next checker is to be started, as now() says it; or INFINITY. */
double shared_due(void);
/* Starts a checker of all that wait, if that is due, or there is hurry. */
void shared_start(bool hurries);
/* Takes the status of a shared checker that has ended. */
void shared_has_ended(void *batch, int status);

/* Of a process that needs a checker of its own; and the next such, or null. */
void shared_add_alone(struct segment *segment);
struct segment *shared_next_alone(void);

#endif
