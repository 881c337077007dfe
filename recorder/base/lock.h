/* The recorder's locks. They call nothing of the C library, so a program may have any name for itself.

   Called: for the stream's lock by stream/state.c, for the allocator's (gate and central) by heap/, and by
   interface/reports.c for its own: in any thread. A handler may wait for one only if its own thread can't have it, as
   for the stream's, whose owner has signals blocked; else it tries. README.md has the order of locks. */
#ifndef ASANCOL_LOCK_H
#define ASANCOL_LOCK_H

#include <linux/futex.h>
#include <stdatomic.h>
#include <stdbool.h>
#include <stdint.h>

#include "base/processor.h"
#include "base/system.h"

/* Zeros: it is free. */
struct lock {
    _Atomic uint32_t state;
};

enum { LOCK_FREE, LOCK_HELD, LOCK_AWAITED };

static inline bool lock_try(struct lock *lock)
{
    uint32_t free = LOCK_FREE;
    return atomic_compare_exchange_strong_explicit(&lock->state, &free, LOCK_HELD, memory_order_acquire,
                                                   memory_order_relaxed);
}

/* Who has it mostly gives it soon: to sleep and to be woken takes longer. */
static inline void lock_take(struct lock *lock)
{
    enum { LOOKS = 100 };
    for (int looks = 0; looks < LOOKS; looks++) {
        uint32_t state = atomic_load_explicit(&lock->state, memory_order_relaxed);
        if (state == LOCK_FREE && lock_try(lock))
            return;
        if (state == LOCK_AWAITED)
            break;
        processor_pause();
    }
    while (atomic_exchange_explicit(&lock->state, LOCK_AWAITED, memory_order_acquire) != LOCK_FREE)
        system_futex(&lock->state, FUTEX_WAIT_PRIVATE, LOCK_AWAITED);
}

/* Any thread may do this, also the one that a fork leaves. */
static inline void lock_give(struct lock *lock)
{
    if (atomic_exchange_explicit(&lock->state, LOCK_FREE, memory_order_release) == LOCK_AWAITED)
        system_futex(&lock->state, FUTEX_WAKE_PRIVATE, 1);
}

#endif
