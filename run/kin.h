/* Processes that are to be here, by what others say: children of a fork, and what a process became by an exec.

   Called: kin_look by asancol-run.c, once, at the end, and kin_awaits_child by loop.c, in the one thread of
   asancol-run; no lock. */
#ifndef ASANCOL_RUN_KIN_H
#define ASANCOL_RUN_KIN_H

#include <stdbool.h>

/* Once all were summed up: a process is incomplete if its child or its next program never came. */
void kin_look(void);
/* Whether a child that a process has forked may be there, and has not come yet. Called by loop.c for a served program,
   whose children are not asancol-run's. */
bool kin_awaits_child(void);

#endif
