/* The end of a program that has a run of its own (own_run.h): it waits until the verdict is printed, and ends with the
   status of the run.

   Called: root_end_by_signal and root_holds by signals.c, in the handler of a signal that ends the process, in any
   thread; root_end_at_exit by start.c, hooks.c and halt.c, when nothing is recorded any more, in the thread that
   ends the process, also in a handler; root_is_to_ask and root_quick_status by start.c, there too; root_becomes by
   exec_notice.c, with the allocator's lock before an exec and after one that failed; root_note_quick_exit and
   root_has_no_child by the program (hooks.def). Lock: the caller has none; root_end_at_exit holds the allocator's
   while it asks, if there are other threads. */
#ifndef ASANCOL_ROOT_H
#define ASANCOL_ROOT_H

#include <stdbool.h>

enum { STATUS_STAYS = -1 };

/* The process executes another program, or could not. If its run has begun, that program finds it without an
   environment that names it, and ends with its status. */
void root_becomes(bool becomes);
/* The program is about to wait for all its children, also for those of which no signal tells: none of them is ours. */
void root_has_no_child(void);
/* Answers the status with which the process is to end in place of its own, which is as of waitpid; or STATUS_STAYS, as
   at once if it is none of those or has asked before. At an exit: other threads stand still meanwhile, and stay so if
   this is the end (world.h). */
int root_end_at_exit(int status, bool is_end);
/* Whether that will ask. */
bool root_is_to_ask(void);
/* quick_exit was called with this status; and that status, or -1: nobody has seen it. */
void root_note_quick_exit(int status);
int root_quick_status(void);
/* The same for a signal, also after the question: the answer may have come by then. */
int root_end_by_signal(int number);
/* Whether a signal that would end the process waits for the answer: the first one does. */
bool root_holds(int number);

#endif
