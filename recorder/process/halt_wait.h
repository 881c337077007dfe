/* The threads that have halted and wait for their run: for the text of a report, or for whether it counts.

   Called: halt_wait by halt.c and showing.c, in the thread with the fault, perhaps in a signal handler; the others by
   halt.c, in any thread. No lock: the count is one atomic. Nothing is allocated. */
#ifndef ASANCOL_HALT_WAIT_H
#define ASANCOL_HALT_WAIT_H

#include <stdbool.h>
#include <stdint.h>

/* This thread begins or ends to wait so. A thread whose report counts goes on waiting until it ends the process. */
void halt_wait(bool begins);
/* How many threads but this one wait, of this process: in a forked child none is its parent's. */
uint32_t halt_others_wait(void);
/* Whether any thread has waited, also one of the parent's, without a system call. */
bool halt_has_waited(void);

#endif
