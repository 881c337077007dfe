/* Signals that end the process, handled.

   Called: signals_handle by start.c, or preload_wait.c when a preloaded recorder begins; signals_set_action by
   handlers.c and signals_note_abort by exits.c (hooks.def), signals_abort by halt.c: these in any thread, also in a
   handler. The kernel calls the handlers, on_ending and before_handler, in any thread, whatever it does just now.
   Lock: the callers have none; on_ending takes the stream's to end it. If the recorder's own code has met the fault,
   this thread may have any lock: then the stream's is at most waited for a while. Nothing is allocated. */
#ifndef ASANCOL_SIGNALS_H
#define ASANCOL_SIGNALS_H

#include <stdint.h>

struct sigaction;

/* Ends the process as the C library's abort does. */
_Noreturn void signals_abort(void);
/* Handles the signals that end the process, where the program has not. The caller is undisturbed. */
void signals_handle(void);
/* This thread calls abort from here: the signal comes inside the C library, where nothing leads to its caller. */
void signals_note_abort(uintptr_t caller);
/* As sigaction, to a program that must not see the handlers above. */
int signals_set_action(int number, const struct sigaction *action, struct sigaction *old);

#endif
