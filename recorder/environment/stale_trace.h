/* Whether a trace that is there is one of an earlier run.

   Called: by opening.c, in the thread that begins the stream: at the start, in a forked child, or at the first fault,
   there perhaps in a signal handler. Lock: the caller has the stream's; this takes none, and keeps nothing. */
#ifndef ASANCOL_STALE_TRACE_H
#define ASANCOL_STALE_TRACE_H

#include <stdbool.h>

/* Whether a file was there before the run that this process belongs to. The run begins with the first process that
   has ASANCOL_TRACE in its environment, and has started the others: as a `make check`, or this one alone. */
bool is_of_earlier_run(const char *path);

#endif
