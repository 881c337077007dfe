/* The files of --suppressions, before the command begins.

   Called: by asancol-run.c, once, in the one thread of asancol-run; no lock. */
#ifndef ASANCOL_RUN_RULES_H
#define ASANCOL_RUN_RULES_H

#include <stdbool.h>

#include "options.h"

/* Asks asancol-report, which reads them, and prints the first mistake. False: a line of them makes no sense. A run that
   has no asancol-report has no use for them either: true. */
bool rules_are_good(const struct options *options);

#endif
