/* Bounds that somebody has lowered, a process for itself or the user for the whole run; and that of freed memory, if a
   process has come to it. Nothing that was seen is less certain by it, so it costs no status, but a clean result says
   less.

   Called: by asancol-run.c, once, at the end, in the one thread of asancol-run; no lock. */
#ifndef ASANCOL_RUN_LOWERED_H
#define ASANCOL_RUN_LOWERED_H

#include <stdbool.h>

#include "options.h"

/* A line for each bound and value, once all processes are done. Files are of no run. */
struct strings lowered_lines(const struct options *options, bool is_of_run);

#endif
