/* Stacks of calls. Each is kept once, and a call site stands for it: a word that is kept where an address would be. So
   a block needs no more room for the stack of its malloc than for its caller.

   Called: as each function says, in any thread, also in a handler, with or without locks. No lock here: words and
   the table are atomic (stacks.c). It allocates nothing, and calls the system only for memory that may be gone. */
#ifndef ASANCOL_STACKS_H
#define ASANCOL_STACKS_H

#include <stdint.h>

#include "stacks/unwinding.h"

/* A call site is the address after a call, as it is if nothing else is known; or it stands for a stack. Over these it
   has the number of the thread that made the call (thread_notes.h). 0: not known. */
typedef uint64_t call_site;

/* Where a block was allocated and freed; 0 if it is not known, or not freed. */
struct call_sites {
    call_site allocated, freed;
};

/* The call site from which we came to `caller`, with the calls that led there (unwinding.h). (stream/, interface/,
   process/, report/) */
call_site call_site_of(uintptr_t caller);
/* The same, if between here and that call lies code without frame pointers: from a frame beyond that, or 0. (heap/,
   for each malloc and free) */
call_site call_site_from(uintptr_t frame, uintptr_t caller);
/* The call site that stands for an instruction at which a signal has come. (process/signals.c, in a handler) */
call_site call_site_at(const struct registers *registers);
/* The address after the innermost call. (stream/, heap/families.c, leaks/roots.c, process/, report/) */
uintptr_t call_site_address(call_site of);
/* The number of the thread that made it (thread_notes.h). (stream/, report/describing.c) */
unsigned call_site_thread(call_site of);
/* The same call site and stack, of whichever thread. (leaks/lost.c) */
call_site call_site_of_any_thread(call_site of);
/* Its frames, the innermost first, and how many there are; 0: it has no stack. (stream/lists.c, report/code.c) */
unsigned call_site_frames(call_site of, uint64_t frames[MAX_FRAMES]);

/* Its number in the list of this number, or 0: each stack has room for one, which the next list takes.
   (stream/lists.c) */
uint32_t call_site_number(call_site of, uint32_t list);
/* Gives it a number in a list if it has none there, and answers the one that it has. (stream/lists.c) */
uint32_t call_site_give_number(call_site of, uint32_t list, uint32_t number);

#endif
