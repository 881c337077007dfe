/* Given to each source of the stream by -include: the operations that threads share become points at which the explorer
   (explore.c) may let another thread go on. All of them run in one thread of the system, one at a time: so what stands
   here need not be atomic. */
#ifndef ASANCOL_EXPLORE_H
#define ASANCOL_EXPLORE_H

#include <stdatomic.h>
#include <stdbool.h>

#include "base/lock.h"
#include "base/system.h"

/* Before an operation on shared memory; the texts are for the list of steps. */
void explore_point(const char *what, const char *function, int line);
/* The same, where nothing is changed: a thread that looks again and again waits until something has changed. */
void explore_look(const char *what, const char *function, int line);
/* After a change. */
void explore_changed(void);
/* A thread waits a little, as one that may lose its patience. */
void explore_rest(void);
bool explore_lock_try(struct lock *lock);
void explore_lock_take(struct lock *lock);
void explore_lock_give(struct lock *lock);
int explore_madvise(const volatile void *address, size_t size, int advice);

#define EXPLORE_VALUE(at) __typeof__((void)0, *(at))
#define EXPLORE_POINT(what) explore_point(what, __func__, __LINE__)
#define EXPLORE_LOOK(what) explore_look(what, __func__, __LINE__)

#undef atomic_load
#undef atomic_load_explicit
#undef atomic_store
#undef atomic_store_explicit
#undef atomic_exchange
#undef atomic_exchange_explicit
#undef atomic_fetch_add
#undef atomic_fetch_add_explicit
#undef atomic_fetch_sub
#undef atomic_fetch_or
#undef atomic_compare_exchange_strong
#undef atomic_compare_exchange_weak

#define atomic_load(at) (EXPLORE_LOOK("load " #at), *(at))
#define atomic_load_explicit(at, order) atomic_load(at)
#define atomic_store(at, value)                                                                                        \
    (EXPLORE_POINT("store " #at " = " #value), (void)(*(at) = (value)), explore_changed())
#define atomic_store_explicit(at, value, order) atomic_store(at, value)
#define EXPLORE_CHANGE(what, at, value)                                                                                \
    __extension__({                                                                                                    \
        EXPLORE_POINT(what);                                                                                           \
        EXPLORE_VALUE(at) before_change = *(at);                                                                       \
        *(at) = (EXPLORE_VALUE(at))(value);                                                                            \
        explore_changed();                                                                                             \
        before_change;                                                                                                 \
    })
#define atomic_exchange(at, value) EXPLORE_CHANGE("exchange " #at ", " #value, at, value)
#define atomic_exchange_explicit(at, value, order) atomic_exchange(at, value)
#define atomic_fetch_add(at, value) EXPLORE_CHANGE("add " #at ", " #value, at, before_change + (value))
#define atomic_fetch_add_explicit(at, value, order) atomic_fetch_add(at, value)
#define atomic_fetch_sub(at, value) EXPLORE_CHANGE("subtract " #at ", " #value, at, before_change - (value))
#define atomic_fetch_or(at, value) EXPLORE_CHANGE("or " #at ", " #value, at, before_change | (value))
#define atomic_compare_exchange_strong(at, expected, value)                                                            \
    __extension__({                                                                                                    \
        EXPLORE_LOOK("compare " #at ", exchange by " #value);                                                          \
        bool is_same = *(at) == *(expected);                                                                           \
        if (is_same) {                                                                                                 \
            *(at) = (value);                                                                                           \
            explore_changed();                                                                                         \
        } else {                                                                                                       \
            *(expected) = *(at);                                                                                       \
        }                                                                                                              \
        is_same;                                                                                                       \
    })
#define atomic_compare_exchange_weak atomic_compare_exchange_strong

#define lock_try explore_lock_try
#define lock_take explore_lock_take
#define lock_give explore_lock_give
#define system_sched_yield() explore_rest()
#define system_nanosleep(span) explore_rest()
#define system_madvise explore_madvise

#endif
