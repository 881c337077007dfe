/* The calls that have led somewhere: from frame to frame, by call frame information (cfi.h), and by frame pointers
   where a function has none. On any stack: what cannot be read ends it.

   Called: unwind_from_call, unwind_end and unwind_from_registers by stacks.c, unwind_to by process/threads.c, and
   unwind_to_handlers by stream/own_place.c and process/showing.c, in the thread whose stack it is, also in a handler,
   with or without locks. No lock here: `struct stack` is the caller's, and a rule is written so that another thread
   takes no half of it (unwinding.c). unwinding_modules_changed by process/plain.c and interface/hooks.c, in any thread,
   after a library was opened. */
#ifndef ASANCOL_UNWINDING_H
#define ASANCOL_UNWINDING_H

#include <stdbool.h>
#include <stdint.h>

#include "stacks/depth.h"
#include "stacks/own_stack.h"
#include "stacks/walks.h"

/* The addresses after the calls, the innermost first, and how many there are. The hash depends on all of them. */
struct stack {
    unsigned count;
    bool is_walker; /* what the thread knows of walks is kept from others until the end */
    struct keeping keeping;
    uintptr_t second; /* where the address after the second call is */
    uint64_t hash;
    uint64_t frames[MAX_FRAMES];
};

#define STACK_FACTOR UINT64_C(0x9e3779b97f4a7c15)

/* The hash with one address more. It is 0 of none. */
static inline uint64_t stack_hash(uint64_t hash, uint64_t address)
{
    return (hash + address) * STACK_FACTOR;
}

/* From a frame of the recorder on, one of the functions through which it was called from `caller`. Of no frames: that
   call is not found. The own frame is that of the function that also calls the end, with what stands for the stack. */
void unwind_from_call(uintptr_t own, uintptr_t frame, uintptr_t caller, struct stack *found);
void unwind_end(const struct stack *found, uint64_t place);

/* Where a signal has met a thread. */
struct registers {
    uintptr_t instruction, stack, frame;
    LINK_REGISTER
};

/* The same, from any instruction on, whose address comes first, with 1 added, as if it were a call. */
void unwind_from_registers(const struct registers *registers, struct stack *found);

/* What lies between a frame and one that goes on: a piece for each stack on the way, as far as it was gone; and where
   the frame ends that goes on. */
enum { MOST_PIECES = 4 };
struct frames_between {
    struct span pieces[MOST_PIECES];
    unsigned count;
    uintptr_t end;
};

/* From a frame of the recorder's up to this stack pointer, of one of those that have called it. False: the way ends
   before, so it is on another stack, or is not known; or there is none to go to (0). */
bool unwind_to(uintptr_t frame, uintptr_t target, struct frames_between *found);

/* What the system has stored for the ends of the handlers in which this frame of the recorder's lies, the innermost
   first, at most this many: where its STORED_ numbers count from. Answers how many there are. */
unsigned unwind_to_handlers(uintptr_t frame, uintptr_t *stored, unsigned most);

/* The notes on the code of modules may be outdated. */
void unwinding_modules_changed(void);

#endif
