/* The stacks of threads: their shadow, as frames are left and stacks change hands.

   Called: in the thread that the stack is of, also in a signal handler: stack_frames_left by variables.c before a call
   that does not return; stack_left_by_child by process.c in a child of vfork; stack_vforks by exits.c;
   stack_switches and stack_begins by spaces.c; those of fibers by interface.c (these all by hooks.def); stack_has_frame
   by record.h and stack_is_own_frame by heap/entering.c (`above`). threads_visit_waiting by roots.c, while all other
   threads stand still. Not in a handler: thread_function_behind by plain.c, for dlsym; and what begins and ends a
   thread, which the C library calls in that thread. The program calls the functions of the C library's that are
   replaced here: the jumps and the throws may come in a handler; pthread_create and thrd_create may not.
   Lock: none: a thread's data are its own, and tables that threads share are atomic. But each replaced function takes
   the loader's for a moment at its first call (library_next), and threads_find_jumps, for the jumps, at the start; and
   end_thread, or a jump out of the allocator, the allocator's. Nothing is allocated. */
#ifndef ASANCOL_THREADS_H
#define ASANCOL_THREADS_H

#include <stdbool.h>
#include <stdint.h>

#include "base/platform.h"
#include "stacks/own_stack.h"

/* At the start, by start.c: finds the library's jumps, since a handler may jump out of the allocator, and then must not
   wait for the loader's lock. */
void threads_find_jumps(void);
/* Whether an address in a block is in this frame or above it, on the same stack: in a block that this frame is in, too.
   */
bool stack_has_frame(uintptr_t frame, uintptr_t address) OWN_NAME(stack_has_frame);
/* Whether it is on the thread's own stack, and on no other that lies in an array there. */
bool stack_is_own_frame(uintptr_t frame);
/* Before a call that does not return: frames from this one up may be left without their returns; in a child of vfork
   those below its parent's call. */
void stack_frames_left(uintptr_t frame) OWN_NAME(stack_frames_left);
/* The same at the end of a child of vfork. */
void stack_left_by_child(uintptr_t frame);
/* The thread calls vfork, with this stack pointer. */
void stack_vforks(uintptr_t stack) OWN_NAME(stack_vforks);

/* A switch to another context: the frame that it is made in, and the stack pointer to which it goes, or below that what
   the switch has kept there. */
struct stack_switch {
    uintptr_t frame, target;
    struct span from, to;
    bool goes_on;     /* where it is made, later */
    bool says_stacks; /* contexts on a stack of their own say where that is */
};

/* What threads that were created are to be given, and have not taken yet. */
void threads_visit_waiting(void (*visit)(uintptr_t argument));

/* The recorder's function of this name (base/behind.h). */
uintptr_t thread_function_behind(const char *name);

void stack_switches(const struct stack_switch *it) OWN_NAME(stack_switches);
/* Memory becomes the stack of a new context. */
void stack_begins(struct span all) OWN_NAME(stack_begins);
/* A fiber switches to another one, of this stack; or the program goes there and says that the former ends. */
void stack_fiber_leaves(uintptr_t frame, bool goes_on, struct span next) OWN_NAME(stack_fiber_leaves);
/* It has switched. Returns the stack that it comes from. */
struct span stack_fiber_comes(void) OWN_NAME(stack_fiber_comes);

#endif
