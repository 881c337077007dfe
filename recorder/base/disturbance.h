/* Signals and cancellation, kept away from the recorder's own work.

   Called: undisturbed_begin and undisturbed_end around work that nothing may interrupt, by any file;
   signal_take_away by say.c, stream/output.c and report/text.c: in any thread, also in a handler. By
   process/signals.c undisturbed_by_faults as it sets its handlers, and is_undisturbed in a handler of faults. No
   lock: the mask of signals is the thread's own. */
#ifndef ASANCOL_DISTURBANCE_H
#define ASANCOL_DISTURBANCE_H

#include <stdbool.h>
#include <stdint.h>

/* Two that the C library keeps for itself: by one it cancels a thread, which has to wait too, and by the other it
   changes the user of all threads, for which it waits. */
enum { CANCEL_SIGNAL = 32, USER_SIGNAL = 33 };

/* What a thread was like before. */
struct disturbance {
    uint64_t mask;
};

/* Between these two no handler runs in this thread, and nobody cancels it. SIGBUS comes through: it may say that the
   trace was cut. */
void undisturbed_begin(struct disturbance *before);
void undisturbed_end(const struct disturbance *before);
/* Faults come through as well from now on, since the handler of these signals knows what to do: who blocks them dies of
   one without a word. If they were not raised by a fault, that handler has them wait. */
void undisturbed_by_faults(uint64_t set);
/* Whether a thread with this mask is between the two. */
bool is_undisturbed(uint64_t mask);
/* A call that failed has raised a signal, which is blocked: takes it away again. */
void signal_take_away(int number);

#endif
