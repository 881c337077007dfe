/* The end of the process at the first access or free that the shadow flags, by ASANCOL_HALT; or the beginning of the
   recording there, if a preloaded recorder waits for it.

   Called: halt_at by record.h and by allocating.c, through the table `above` (state.h), in which the stream has the
   functions of higher layers; in the thread with the fault, perhaps in a signal handler that has interrupted the
   allocator. halt_on_death and halt_is_first_crash by the program (interface.c, by hooks.h), in any thread.
   halt_is_waited_for by start.c and hooks.c, and halt_call_back by undefined.c, in a thread that ends the process.
   Lock: the caller has none of the recorder's, but what a handler has interrupted may have the allocator's. All state
   here is atomic. What begins and ends the recording takes the allocator's and the stream's (process.h), or if it is
   preloaded the loader's too (plain.h). Nothing is allocated; but the program's callbacks run at the end, and these may
   do anything. */
#ifndef ASANCOL_HALT_H
#define ASANCOL_HALT_H

#include <stdbool.h>
#include <stdint.h>

#include "common/format.h"
#include "stream/access.h"

/* Ends the recording and the process. It returns in four cases: the settings do not want the end, and the event is
   recorded; the run suppresses the report; this thread is ending the process already (a callback has a fault); or
   another thread is, and has not come to the end within 5 seconds. `whole` is the access of which this is a piece, or
   null if it is all of it; never null for a free. */
void halt_at(enum code code, unsigned width, uint64_t address, uintptr_t caller, struct access *whole);
/* Before an exit: another thread that has halted may wait for the text of its report, or for whether it counts, and
   ends the process then. */
void halt_is_waited_for(void);
/* The function that is called before the process ends, in place of an earlier one; and calls it. */
void halt_on_death(void (*callback)(void));
void halt_call_back(void);
/* Whether nobody has asked this before, and the process is not halting: who asks first reports the crash. */
bool halt_is_first_crash(void);

#endif
