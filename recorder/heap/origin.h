/* For whom the next malloc or free of this thread is: the caller that stands for it, and the operator of C++.

   Called: origin_take_use, origin_caller_or and origin_is_noted by allocating.c, origin_of by that and entering.c,
   origin_place by allocating.c and freeing.c: in the thread that allocates or frees, also in a handler, inside the
   allocator or not. `said` is written before, in the same thread, by the functions of heap.h in origin.c, which
   checks of calls and operators call. A handler that allocates in between takes the word of a check, but not that of
   an operator. No lock: it is thread-local. */
#ifndef ASANCOL_ORIGIN_H
#define ASANCOL_ORIGIN_H

#include <stdbool.h>
#include <stddef.h>
#include <stdint.h>

#include "heap/arena.h"
#include "libc/family.h"
#include "stacks/stacks.h"

extern _Thread_local struct said said;

/* The frame of an operator's malloc or free is at most so far below that of the operator. That of a signal handler is
   farther away: the system puts more than this between them, or it has another stack. */
enum { OPERATOR_REACH = 1024 };

/* Whether the word is that of an operator of a C++ library, which has yet to call malloc or free. */
static inline bool origin_has_operator(void)
{
    return said.use.family == FAMILY_NEW || said.use.family == FAMILY_NEW_ARRAY;
}

/* The same, and this frame is that of a malloc or free which a signal handler calls before the operator does. */
static inline bool origin_is_of_another(uintptr_t frame)
{
    return UNLIKELY(origin_has_operator()) && UNLIKELY(said.frame - frame > OPERATOR_REACH);
}

/* Such a handler's use is not known, since an allocator of the program's may lie between an operator and this one. The
   word stays the operator's: the handler gives back what this answers. */
static inline struct said origin_put_aside(void)
{
    struct said of_operator = said;
    said = (struct said){.use.family = FAMILY_ANY};
    return of_operator;
}

/* This thread jumps to this stack pointer, maybe out of a handler that has interrupted an operator. */
void origin_left_by_jump(uintptr_t target);

/* The given use, which is then taken back. */
static inline struct use origin_take_use(void)
{
    struct use use = {FAMILY_MALLOC, 0, 0};
    if (UNLIKELY(said.use.family != FAMILY_MALLOC)) {
        use = said.use;
        said.use = (struct use){FAMILY_MALLOC, 0, 0};
    }
    return use;
}

/* Who was said to call, which is taken back too; else this one. */
static inline uintptr_t origin_caller_or(uintptr_t caller)
{
    uintptr_t found = said.caller;
    said.caller = 0;
    if (UNLIKELY(found != 0))
        return found;
    said.frame = 0;
    return caller;
}

/* Who calls: the address after the call, and its place if that is known already; or 0. */
struct origin {
    uintptr_t caller;
    call_site place;
};

/* Whether call sites are noted. */
static inline bool origin_is_noted(void)
{
    return __atomic_load_n(&arena.call_sites, __ATOMIC_RELAXED) != NULL;
}

/* The place is looked for at once: while the notes on a block come, or before a lock is taken. */
static inline struct origin origin_of(uintptr_t caller)
{
    return (struct origin){caller, origin_is_noted() ? call_site_from(said.frame, caller) : 0};
}

static inline call_site origin_place(struct origin from)
{
    return from.place != 0 ? from.place : call_site_from(said.frame, from.caller);
}

#endif
