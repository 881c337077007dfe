/* Which signals are crashes.

   Called: crash_is by stream/side.c, in any thread, also in a handler, and by run/nothing.c and run/verdict.c in the
   one thread of asancol-run; no lock: it only compares. */
#ifndef ASANCOL_CRASH_H
#define ASANCOL_CRASH_H

#include <signal.h>
#include <stdbool.h>

/* Whether a process that this signal ends has crashed. */
static inline bool crash_is(unsigned number)
{
    return number == SIGSEGV || number == SIGBUS || number == SIGILL || number == SIGFPE || number == SIGABRT
           || number == SIGSYS || number == SIGTRAP;
}

#endif
