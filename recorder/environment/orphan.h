/* A process that has no setting of ours, and runs under an asancol-run all the same: its environment was cleaned, or is
   not to be believed. It finds the run by what it has inherited (common/inherited.h).

   Called: orphan_ask by own_run.c and process.c, then orphan_value by settings.c and own_run.c, in the thread that
   starts the recorder, not in a signal handler. orphan_say by process.c and mapping.c in that thread, by foreign.c in
   the thread that loads an object, and if the recorder is preloaded in the first thread that executes checks, perhaps
   in a signal handler. Lock: it takes none: the answer of the run is written by orphan_ask alone. Nothing is allocated.
   */
#ifndef ASANCOL_ORPHAN_H
#define ASANCOL_ORPHAN_H

#include <stdbool.h>

#include "base/platform.h"

/* Asks the run for its settings, if there is one that takes this process for its own. */
void orphan_ask(void);
/* The same of this run. False: it gives none. */
bool orphan_ask_at(const char *hub);
/* Whether there is a run that gives this process no settings. */
bool orphan_is_in_the_way(void);
/* What that run would answer, in lines. */
void orphan_give(const char *lines);
/* What the run has said of a setting, or null. */
const char *orphan_value(const char *name);

/* Leaves word with the run, if there is one. Null: with the obstacle to recording this process. */
void orphan_say(const char *why) OWN_NAME(orphan_say);

#endif
