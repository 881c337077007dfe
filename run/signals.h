/* Signals to asancol-run: they are blocked, and read from a descriptor.

   Called: signals_open and signals_ignore_writes by asancol-run.c, signals_read by loop.c, signals_end_by by both; in
   the one thread of asancol-run; no lock. signals_restore by command.c, in the child of vfork before its exec. There is
   no handler: what a signal asks for is done when the loop reads it. */
#ifndef ASANCOL_RUN_SIGNALS_H
#define ASANCOL_RUN_SIGNALS_H

#include <stdbool.h>
#include <sys/types.h>

/* Blocks them, and returns the descriptor. Those ignored before stay ignored. */
int signals_open(void);
/* In the child that becomes the command: as it was before. */
void signals_restore(void);
/* A pipe without a reader, and a file that may not grow, are errors from now on, and no end: of a checker too, which
   can't ask for that itself. */
void signals_ignore_writes(void);
/* Reads all that have come, and passes those from elsewhere on to the command, if it is not 0. Answers how many have
   come from elsewhere that want an end. */
int signals_read(int descriptor, pid_t command);
/* Ends this process by a signal, without a core. */
void signals_end_by(int number);

#endif
