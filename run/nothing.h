/* Why nothing was recorded, and which signal ended a command.

   Called: by asancol-run.c at the end, in the one thread of asancol-run; no lock. */
#ifndef ASANCOL_RUN_NOTHING_H
#define ASANCOL_RUN_NOTHING_H

#include <stdbool.h>

/* The signal that has ended a command or, by the status of a shell, its last program; 0 or less: none. `status` is what
   wait says. */
int signal_of(int status);
/* The line that says so, and its reason as far as that is known. The caller frees the line. */
char *nothing_text(const char *command, int status, bool has_timed_out);

#endif
