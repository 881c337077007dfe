/* The time from the start of the command until all is checked.

   Called: by asancol-run.c, once for a run, in the one thread of asancol-run; no lock. */
#ifndef ASANCOL_RUN_LOOP_H
#define ASANCOL_RUN_LOOP_H

#include <stdbool.h>
#include <sys/types.h>

#include "options.h"

/* How the command and what it started have ended. */
struct collected {
    int status;          /* of the command, as of waitpid */
    bool is_running;     /* something of it still runs */
    bool has_timed_out;  /* --timeout has ended it */
};

/* Accepts and checks what comes, until the command has ended and nothing is left of it, or --wait is over. */
struct collected loop_run(const struct options *options, pid_t command, int signals);
/* Checks traces in files, which are segments of one process: of each NUMBER:PATH. */
void loop_check_files(const struct options *options, int signals);
/* Waits until asancol-report has ended, or has all, if it was there before. */
void loop_wait_for_report(void);

#endif
