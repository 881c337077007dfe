/* Stacks on which the handlers of signals run.

   Called: signal_stack_of_first by signals.c when a recording begins, in the thread that begins it, perhaps in a
   handler; the others by threads.c, in the thread that the stack is for, not in a handler. Lock: none: the stack left
   is atomic. Memory comes from the system alone. */
#ifndef ASANCOL_SIGNAL_STACK_H
#define ASANCOL_SIGNAL_STACK_H

/* The first thread gets one, and from now on each other. A thread that has one keeps it. */
void signal_stack_of_first(void);
/* Another thread begins: it gets a stack for handlers, if there is memory. */
void signal_stack_begins(void);
/* It ends, and leaves the stack to the next. */
void signal_stack_ends(void);

#endif
