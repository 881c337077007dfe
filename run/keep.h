/* --keep: traces that stay in a folder.

   Called: by checkers.c, in the one thread of asancol-run; no lock. */
#ifndef ASANCOL_RUN_KEEP_H
#define ASANCOL_RUN_KEEP_H

#include "processes.h"

/* Makes the folder if it is missing, and finds tee. Fails if traces cannot be kept there. */
void keep_begin(const char *folder);
/* Starts tee on the connection: it writes the trace into a file that it names, and into a pipe. Answers the end of the
   pipe from which the checker reads, or -1 and errno. */
int keep_start(struct segment *segment);
/* Copies a trace that is in a file. */
void keep_file(struct segment *segment);
/* Removes the trace if nobody needs it, or puts the side memory beside it. */
void keep_end(struct segment *segment, bool is_needed);
/* The same, at the end: writes what has changed since. */
void keep_again(struct segment *segment, bool is_needed);

#endif
