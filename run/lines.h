/* The lines of processes, at the end of a run.

   Called: by asancol-run.c, at the end, in the one thread of asancol-run; no lock. */
#ifndef ASANCOL_RUN_LINES_H
#define ASANCOL_RUN_LINES_H

#include <stdbool.h>

/* Of each process that was complete. */
void lines_say_complete(void);
/* Of those that were incomplete, crashed or ended abruptly, as asancol-report has them: one line for all that have
   the same. `is_quiet`: an end that is abrupt alone has none. */
void lines_say(bool is_quiet, bool has_crashes);

#endif
