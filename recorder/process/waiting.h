/* Redzones of stacks that wait. Whoever waits there may be left for good, and the memory become an array: so the shadow
   of the stack is clear until it goes on, and its redzones are kept here, by where the stack begins.

   Called: by process/threads.c, at switches and jumps, in the thread that leaves the stack, comes to it or makes it
   anew, also in a handler. Lock: none: entries are taken by atomic exchange, and who finds one busy does without. */
#ifndef ASANCOL_WAITING_H
#define ASANCOL_WAITING_H

#include "stacks/own_stack.h"

/* Keeps the redzones of a stack from this frame on. */
void waiting_keep(struct span stack, uintptr_t frame);
/* Puts it back where the shadow is clear, from this stack pointer on. */
void waiting_put_back(struct span stack, uintptr_t target);
/* The stack begins anew. */
void waiting_forget(struct span stack);

#endif
