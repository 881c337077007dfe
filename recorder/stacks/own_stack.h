/* Where the thread's own stack lies.

   Called: stack_start by start/start.c, in the first thread; page_above by that, and by process/threads.c, which
   writes own_stack of another thread, as that begins. The rest by unwinding.c, process/, interface/, report/ and
   stream/own_place.c, in the thread itself, also in a handler; stack_has_grown by is_on_own_stack alone, and
   stack_note_rights by walks.c. No lock: own_stack is thread-local;
   walks.c and fake_stack.c read it too. leaks/roots.c reads that of other threads, which stand still. */
#ifndef ASANCOL_OWN_STACK_H
#define ASANCOL_OWN_STACK_H

#include <stdbool.h>
#include <stddef.h>
#include <stdint.h>

#define MAX_STACK_SIZE ((uint64_t)1 << 30)

extern _Thread_local struct own_stack {
    uintptr_t low, top; /* 0 if it is not known */
    uintptr_t readable; /* up to here: the frames of who has begun the thread may lie above */
    uintptr_t all;      /* up to here, if the thread did not forbid a part of it; 0: it has not */
    uintptr_t hidden;   /* where that part ends */
    bool may_grow;      /* below `low`: the first thread's, once its limit was raised */
    uintptr_t other;    /* what lies below this is no part of it, as was found: other memory is there, or nothing */
} own_stack;

/* A part of a stack, or where one lies, up to `top`; zeros if that is not known. */
struct span {
    uintptr_t low, top;
};

static inline bool is_in(struct span span, uintptr_t address)
{
    return address >= span.low && address < span.top;
}

/* In the first thread, at the start. */
void stack_start(void);
/* Whether it has grown so far down, below `low`: then that is `low` from now on. */
bool stack_has_grown(uintptr_t frame);
static inline bool is_on_own_stack(uintptr_t frame)
{
    if (frame >= own_stack.top)
        return false;
    return frame >= own_stack.low || (own_stack.may_grow && frame >= own_stack.other && stack_has_grown(frame));
}

/* From where on it has frames, also if it has grown. */
static inline uintptr_t stack_low(void)
{
    uintptr_t frame = (uintptr_t)__builtin_frame_address(0);
    return frame < own_stack.low && is_on_own_stack(frame) ? frame : own_stack.low;
}

/* Whether an address that may be of anything is on it: other memory may lie where it can grow, as in an emulator. */
static inline bool is_of_own_stack(uintptr_t address)
{
    return address >= stack_low() && address < own_stack.top;
}

/* Up to where it can be read from this address on; or 0. */
static inline uintptr_t stack_readable(uintptr_t frame)
{
    return is_on_own_stack(frame) ? own_stack.readable : 0;
}

/* The end of the thread's own stack, if this address is on it; or 0. */
static inline uintptr_t stack_top(uintptr_t frame)
{
    return is_on_own_stack(frame) ? own_stack.top : 0;
}

/* Memory may be read from now on, or not, which is noted before. Answers whether it is of this stack. */
bool stack_note_rights(uintptr_t start, size_t size, bool can_be_read);

uintptr_t page_above(uintptr_t address);

#endif
