/* A program that finds no run has one of its own: asancol-run with the program's words, which begins once there is
   something to report.

   Called: own_run_begin by start.c and own_run_say by process.c, in the thread that starts the recorder, not in a
   signal handler: there is no other thread yet. own_run_begin_at_halt by process.c, in the one thread that ends the
   process, perhaps in a handler. Lock: none is held. Memory comes from the system alone, and nothing of the C library
   is called: it may not be ready. */
#ifndef ASANCOL_OWN_RUN_H
#define ASANCOL_OWN_RUN_H

#include <stdbool.h>

/* Arranges for it, unless the process has another place to record to, or its user wants none. The environment is known.
   Else only `library` has begun, and the allocator with the shadow if something was allocated. */
void own_run_begin(void);
/* The target of a fuzzer has none, but as it halts one that names functions and lines in its report. False: it is no
   such, its user wants none, or there is no asancol-run. */
bool own_run_begin_at_halt(void);
/* Says why there is none, and ends the process with 98 then: nothing is unchecked by accident. The settings are
   read. */
void own_run_say(void);

#endif
