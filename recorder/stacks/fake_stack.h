/* The fake stack of a thread: frames in memory apart from its stack, which is used again late. So an access to a
   variable of a function that has returned is found. The compilers' code takes a frame when a function begins, and
   keeps its variables on the stack if it gets none. When the function returns, that code marks the frame's shadow as
   SHADE_RETURNED and clears a flag, whose address stands in the frame's last word.

   Called: fake_take and fake_give by compiled code, by way of interface/hooks.def, and so fake_current and
   fake_real_of by the program; fake_frames_left, fake_context_begins and fake_thread_ends by process/threads.c at
   jumps, new contexts and the end of a thread: each in the thread whose frames they are, also in a handler.
   fake_start_of by frames.c, in any thread, also in a handler. No lock: the thread alone uses its slot, and the list
   of free slots is atomic. By process/process.c fake_stack_start at the start, without a lock, and fake_stack_stop
   with the allocator's. fake_each_frame by leaks/roots.c, in the thread that looks for leaks, maybe in a handler, with
   the allocator's lock, and the loader's where leaks.h says so; all other threads stand still. */
#ifndef ASANCOL_FAKE_STACK_H
#define ASANCOL_FAKE_STACK_H

#include <stdbool.h>
#include <stddef.h>
#include <stdint.h>

#include "base/platform.h"

/* The compilers' frames have 64 << class bytes. */
enum { FAKE_CLASSES = 11, FAKE_LEAST_SHIFT = 6 };

/* The words of a frame's left redzone. The compilers write three, and here is the next one: where on the stack the
   function was. When the function has returned, there is another number. */
#define FRAME_MAGIC UINT64_C(0x41b58ab3)
#define RETURNED_MAGIC UINT64_C(0x45e0360e)
enum { WORD_MAGIC, WORD_DESCRIPTION, WORD_FUNCTION, WORD_REAL, WORDS };

/* Whether code that was compiled with `runtime` asks for frames: it reads this first, and asks if it is not 0. */
extern int __asan_option_detect_stack_use_after_return;
enum {
    FRAMES_NEVER, /* nothing is recorded, or AddressSanitizer's option refuses them, which is said anyway */
    FRAMES_GIVEN,
    FRAMES_REFUSED /* by a variable of ASANCOL: the first that asks says so */
};

/* From now on threads get frames: functions compiled with `runtime` by this answer. */
void fake_stack_start(int answer);
/* This thread gets none, nor does one that has had none. */
void fake_stack_stop(void);

/* A frame of this class, for a function that is called from a frame above `real`. 0: there is none. A signal handler
   may call this at any time. */
uintptr_t fake_take(unsigned class, uintptr_t real) OWN_NAME(fake_take);
/* The function returns. */
void fake_give(uintptr_t frame, unsigned class) OWN_NAME(fake_give);

/* Frames on this stack may have been left without their returns. Those below the next one that the thread takes there
   are given back then. */
void fake_frames_left(uintptr_t low, uintptr_t top);
/* Memory becomes the stack of a new context: what this thread has taken there is given back. */
void fake_context_begins(uintptr_t low, uintptr_t top);
/* The thread ends: its frames can be another thread's, and most of the memory goes back to the system. */
void fake_thread_ends(void);

/* This thread's fake stack, as a word for those below; null: it has none. */
void *fake_current(void);
/* Where on the stack the function was when it took the frame that has this address, and from where to where its
   variables lie. Null: that is no frame of this fake stack that is in use. */
void *fake_real_of(void *stack, uintptr_t address, uintptr_t *start, uintptr_t *end);

/* Calls `visit` for each frame that is taken, of any thread. No other thread runs. */
void fake_each_frame(void (*visit)(uintptr_t low, uintptr_t top));

/* Where the frame starts that has this address, of any thread. 0: it is in none. */
uint64_t fake_start_of(uint64_t address);

#endif
