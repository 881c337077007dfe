/* Going into the allocator and out. A thread is in its shard alone, or has all (blocks.h). A signal handler whose
   thread is in here already is not let in: it gets spare memory (spare.h), and what it frees is freed by the thread
   that it has interrupted.

   Called: by allocating.c and numbers.c, in any thread, also in a handler. The locks are taken here, and the caller
   has none that comes after: heap_enter takes the own shard, or all; heap_enter_all takes all, which is the gate's
   lock. Who was let in calls heap_leave, and only who was. heap_defer in a handler that was not. The functions
   before heap_enter are for that, for heap_leave and for entering.c alone. this_visit is the thread's own, and
   entering.c alone writes it, with the functions that have their body here. */
#ifndef ASANCOL_ENTERING_H
#define ASANCOL_ENTERING_H

#include <stdbool.h>

#include "libc/library.h"
#include "heap/blocks.h"

struct deferred;

/* What this thread does in the allocator. It alone writes to it, and its handlers may find it in the middle. */
struct visit {
    volatile enum visit_place { OUTSIDE, AT_THE_LOCK, INSIDE } is_inside;
    volatile enum { HAS_NOTHING, HAS_SHARD, HAS_ALL } has; /* or is about to take */
    struct shard *own;                                     /* null: it has none yet, or its end has come */
    volatile uintptr_t frame;                              /* in which it has come in */
    struct deferred *_Atomic waiting; /* what handlers have freed while it was in here, the newest first */
};
extern _Thread_local struct visit this_visit;

/* Who goes in says so, and then looks whether all are closed. Who closes them says that, and then looks who is in. One
   of the two sees the other: both are sequentially consistent, or the kernel makes it so for who closes (membarrier),
   and who goes in needs no locked instruction. A thread that is alone need not say so. */
static inline bool enter_own(void)
{
    if (library_is_alone())
        return !atomic_load_explicit(&heap.is_closed, memory_order_relaxed);
    if (LIKELY(atomic_load_explicit(&heap.has_barrier, memory_order_acquire))) {
        atomic_store_explicit(&this_visit.own->is_busy, true, memory_order_relaxed);
        atomic_signal_fence(memory_order_seq_cst);
    } else {
        atomic_exchange(&this_visit.own->is_busy, true);
    }
    if (LIKELY(!atomic_load(&heap.is_closed)))
        return true;
    atomic_store_explicit(&this_visit.own->is_busy, false, memory_order_release);
    return false;
}

static inline void leave_own(void)
{
    if (atomic_load_explicit(&this_visit.own->is_busy, memory_order_relaxed))
        atomic_store_explicit(&this_visit.own->is_busy, false, memory_order_release);
}

/* A handler that comes before the thread is inside goes in itself, and so the frame is another then. */
static inline void visit_begin(uintptr_t frame, enum visit_place place)
{
    this_visit.frame = frame;
    this_visit.is_inside = place;
    this_visit.frame = frame;
    atomic_signal_fence(memory_order_seq_cst);
}

/* The frame goes last: from a jump before that it is known that the thread is inside no more. */
static inline void visit_end(void)
{
    this_visit.has = HAS_NOTHING;
    atomic_signal_fence(memory_order_seq_cst);
    this_visit.is_inside = OUTSIDE;
    atomic_signal_fence(memory_order_seq_cst);
    this_visit.frame = UINTPTR_MAX;
}

/* What heap_enter and heap_leave do if there is more to do. */
bool enter_slowly(uintptr_t frame); /* it has no shard, or is in here already */
bool enter_again(void);             /* all shards are closed */
void leave_slowly(void);            /* it has all */
void free_what_waits(void);         /* handlers have freed something meanwhile */

/* Into the shard of this thread, or to all of it if that is in order. False: it is a handler that is not let in. */
static inline bool heap_enter(void)
{
    uintptr_t frame = (uintptr_t)__builtin_frame_address(0);
    if (UNLIKELY(this_visit.is_inside != OUTSIDE || this_visit.own == NULL))
        return enter_slowly(frame);
    visit_begin(frame, INSIDE);
    this_visit.has = HAS_SHARD;
    atomic_signal_fence(memory_order_seq_cst);
    return LIKELY(enter_own()) || enter_again();
}

/* The same, always to all of it. */
bool heap_enter_all(void);

static inline void heap_leave(void)
{
    if (UNLIKELY(this_visit.has != HAS_SHARD)) {
        leave_slowly();
        return;
    }
    leave_own();
    visit_end();
    if (UNLIKELY(atomic_load_explicit(&this_visit.waiting, memory_order_relaxed) != NULL))
        free_what_waits();
}

/* The shard that this thread is in; or null: it has all. */
static inline struct shard *heap_shard(void)
{
    return this_visit.has == HAS_SHARD ? this_visit.own : NULL;
}

/* What a handler frees while its thread is in here, by this function. */
void heap_defer(void *pointer, uintptr_t caller, const char *call);

#endif
