/* Each thread has a visit, and the list of what handlers have freed meanwhile. Whoever needs all closes the gate, and
   sees that each shard is left. This file alone changes who is in. It has functions of heap.h too.

   find_own and give_own take the gate for a moment; enter_somewhere takes the shard, or take_all all. With the gate run
   membarrier, wait_for, close_all and give_all, and with all free_deferred. The other static functions
   need no lock, and may run in a handler that has interrupted this thread anywhere. */
#include "heap/entering.h"

#include <linux/membarrier.h>
#include <sys/mman.h>

#include "base/platform.h"
#include "base/self.h"
#include "base/system.h"
#include "libc/library.h"
#include "heap/freeing.h"
#include "heap/heap.h"
#include "heap/shards.h"
#include "heap/spare.h"
#include "stacks/own_stack.h"
#include "stream/keeping.h"
#include "stream/side.h"
#include "stream/state.h"

/* Blocks held before the settings are read are held, too. */
struct heap heap;
_Atomic uint64_t heap_bound = QUARANTINE_BOUND;

_Thread_local struct visit this_visit;
static _Thread_local bool is_over;

/* What signal handlers have freed while this thread was in here: the newest first, and entries that are no longer used.
   A handler puts one in at the front of the one list and takes the front of the other, as may another handler
   that comes between. Only this thread does the reverse, when no handler is in the middle of that: so whoever finds the
   front that it has read finds the list that it has read. */
struct deferred {
    struct deferred *next;
    void *pointer;
    uintptr_t caller;
    const char *call;
};

/* How many need no spare memory. */
enum { DEFERRED = 32 };
static _Thread_local struct {
    struct deferred first[DEFERRED];
    _Atomic unsigned used; /* of these */
    struct deferred *_Atomic unused;
} deferred;

bool heap_is_entered(void)
{
    return this_visit.is_inside != OUTSIDE;
}

/* All shards. */

static long membarrier(int command)
{
    return system_call3(SYS_membarrier, command, 0, 0);
}

/* A thread of lower priority may be in the middle, so that it needs this processor. */
static void wait_for(const struct shard *shard)
{
    enum { LOOKS = 100, TURNS = 200 };
    static const struct timespec a_while = {.tv_nsec = 50000};
    for (int looks = 0; atomic_load(&shard->is_busy); looks += looks < TURNS) {
        if (looks < LOOKS)
            processor_pause();
        else if (looks < TURNS)
            system_sched_yield();
        else
            system_nanosleep(&a_while);
    }
}

static void close_all(void)
{
    atomic_store(&heap.is_closed, true);
    if (atomic_load_explicit(&heap.has_barrier, memory_order_relaxed))
        membarrier(MEMBARRIER_CMD_PRIVATE_EXPEDITED);
    for (const struct shard *it = atomic_load(&heap.shards); it != NULL; it = it->next)
        if (it != this_visit.own)
            wait_for(it);
}

/* Takes the gate, closes the shards and waits until no other thread is in one. A thread that is alone needs neither. */
static void take_all(void)
{
    bool alone = library_is_alone();
    if (!alone)
        lock_take(&heap.gate);
    heap.is_locked = !alone;
    if (!alone && !heap_is_ordered())
        close_all();
    note_all_left_out();
}

static void give_all(void)
{
    if (!heap.is_locked)
        return;
    if (!heap_is_ordered())
        atomic_store(&heap.is_closed, false);
    heap.is_locked = false;
    lock_give(&heap.gate);
}

/* The number of this thread if nobody sees its end: of the C library's own, by clone, or in a static program. Or 0. */
static int unseen_thread(void)
{
    return own_stack.top == 0 && recorder_is_own_process() ? system_gettid() : 0;
}

/* Gives this thread a shard, and before a second one goes in without a locked instruction, finds how. */
static void find_own(void)
{
    bool alone = library_is_alone();
    this_visit.has = HAS_ALL; /* the gate's lock, as far as jumps are concerned */
    if (!alone)
        lock_take(&heap.gate);
    if (!alone && !atomic_load_explicit(&heap.has_barrier, memory_order_relaxed)
        && membarrier(MEMBARRIER_CMD_REGISTER_PRIVATE_EXPEDITED) == 0)
        atomic_store_explicit(&heap.has_barrier, true, memory_order_release);
    this_visit.own = shard_take(unseen_thread());
    if (!alone)
        lock_give(&heap.gate);
}

/* Into the own shard, or all if there is none or it is closed for good. Who has closed it is waited for by the gate. */
static void enter_somewhere(void)
{
    if (this_visit.own == NULL && !is_over && !heap_is_ordered())
        find_own();
    for (;;) {
        this_visit.has = HAS_SHARD;
        if (this_visit.own != NULL && enter_own())
            return;
        this_visit.has = HAS_ALL; /* the gate's lock, as far as jumps are concerned */
        if (this_visit.own == NULL || heap_is_ordered()) {
            take_all();
            return;
        }
        lock_take(&heap.gate); /* whoever has closed it has this */
        lock_give(&heap.gate);
    }
}

static bool was_left_at(uintptr_t frame);

/* False: it is a handler that has interrupted this thread in here. */
static bool may_enter(uintptr_t frame)
{
    if (UNLIKELY(this_visit.is_inside != OUTSIDE) && !was_left_at(frame))
        return false;
    visit_begin(frame, AT_THE_LOCK);
    return true;
}

bool enter_slowly(uintptr_t frame)
{
    if (!may_enter(frame))
        return false;
    enter_somewhere();
    this_visit.is_inside = INSIDE;
    return true;
}

bool enter_again(void)
{
    this_visit.is_inside = AT_THE_LOCK;
    enter_somewhere();
    this_visit.is_inside = INSIDE;
    return true;
}

bool heap_enter_all(void)
{
    if (!may_enter((uintptr_t)__builtin_frame_address(0)))
        return false;
    this_visit.has = HAS_ALL;
    take_all();
    this_visit.is_inside = INSIDE;
    return true;
}

static void put_in_front(struct deferred *_Atomic *list, struct deferred *it)
{
    it->next = atomic_load(list);
    while (!atomic_compare_exchange_strong(list, &it->next, it))
        ;
}

/* Frees what handlers have left, the oldest first. With all. */
static void free_deferred(void)
{
    struct deferred *taken = atomic_exchange(&this_visit.waiting, NULL), *in_order = NULL;
    while (taken != NULL) {
        struct deferred *next = taken->next;
        taken->next = in_order;
        in_order = taken;
        taken = next;
    }
    while (in_order != NULL) {
        struct deferred *it = in_order;
        in_order = it->next;
        struct use use = {FAMILY_ANY, 0, 0};
        free_with_all((uintptr_t)it->pointer, origin_of(it->caller), &use, it->call);
        put_in_front(&deferred.unused, it);
    }
}

static bool has_deferred(void)
{
    return UNLIKELY(atomic_load_explicit(&this_visit.waiting, memory_order_relaxed) != NULL);
}

/* Gives back whichever it has, the shard or all. */
static void go_out(void)
{
    this_visit.is_inside = AT_THE_LOCK;
    atomic_signal_fence(memory_order_seq_cst);
    if (this_visit.has == HAS_ALL)
        give_all();
    else if (this_visit.own != NULL)
        leave_own();
    visit_end();
}

void free_what_waits(void)
{
    while (has_deferred() && heap_enter_all()) {
        free_deferred();
        go_out();
    }
}

void leave_slowly(void)
{
    this_visit.is_inside = INSIDE;
    if (this_visit.has == HAS_ALL)
        while (has_deferred())
            free_deferred();
    go_out();
    free_what_waits();
}

/* How often this thread, in signal handlers, has locked while it was in here already. */
static _Thread_local unsigned nested;

void heap_lock(void)
{
    if (!heap_enter_all())
        nested++;
}

void heap_unlock(void)
{
    if (nested == 0)
        heap_leave();
    else
        nested--;
}

/* Jumps. */

/* This thread is in here no more, in the middle of something that stays half done: a block is nobody's, or free and
   still counts as live. False: it would not do, or it can't be known if the lock was taken already. */
static bool leave_from_the_middle(void)
{
    bool may_have_all = this_visit.has == HAS_ALL && this_visit.is_inside == AT_THE_LOCK && !library_is_alone();
    if (arena_changing != 0 || may_have_all)
        return false;
    atomic_store_explicit(&arena_was_left, true, memory_order_relaxed);
    nested = 0;
    heap_leave();
    return true;
}

/* Whether a signal handler of this thread has jumped out of here. Whoever is called in this frame is called by none
   that this thread has interrupted, if that has come in below it. */
static bool was_left_at(uintptr_t frame)
{
    if (this_visit.is_inside == OUTSIDE || frame < this_visit.frame || !above.is_own_frame(frame)
        || !above.is_own_frame(this_visit.frame))
        return false;
    bool is_left = leave_from_the_middle();
    if (!is_left)
        stream_stop("a signal handler has jumped out of the allocator");
    return is_left;
}

void heap_left_by_jump(uintptr_t target)
{
    was_left_at(target);
    origin_left_by_jump(target);
}

void heap_ends_here(void)
{
    note_all_left_out();
    if (this_visit.is_inside == OUTSIDE || !has_deferred() || leave_from_the_middle())
        return;
    for (const struct deferred *it = atomic_load(&this_visit.waiting); it != NULL; it = it->next)
        side_note_finding_lost();
}

/* Threads. */

/* With the gate alone: of many threads that end each would wait for the shards of all others. */
static void give_own(void)
{
    bool alone = library_is_alone();
    this_visit.has = HAS_ALL; /* the gate's lock, as far as jumps are concerned */
    if (!alone)
        lock_take(&heap.gate);
    shard_give(this_visit.own);
    this_visit.own = NULL;
    is_over = true;
    if (!alone)
        lock_give(&heap.gate);
    this_visit.has = HAS_NOTHING;
}

void heap_thread_ends(void)
{
    if (this_visit.own == NULL || !may_enter((uintptr_t)__builtin_frame_address(0)))
        return;
    give_own();
    heap_leave();
}

void heap_is_alone(void)
{
    for (struct shard *it = atomic_load(&heap.shards); it != NULL; it = it->next)
        atomic_store_explicit(&it->is_busy, false, memory_order_relaxed);
    shards_are_left(this_visit.own);
}

/* Whatever a handler frees while its thread is in here. */

static bool make_deferred(void)
{
    enum { BYTES = SPARE_PIECE, COUNT = BYTES / sizeof(struct deferred) };
    struct deferred *made = spare_take(BYTES, ALIGNMENT);
    for (size_t i = 0; made != NULL && i < COUNT; i++)
        put_in_front(&deferred.unused, &made[i]);
    return made != NULL;
}

static struct deferred *take_unused(void)
{
    struct deferred *front = atomic_load(&deferred.unused);
    while (front != NULL && !atomic_compare_exchange_strong(&deferred.unused, &front, front->next))
        ;
    return front;
}

/* Null: there is no memory. */
static struct deferred *take_deferred(void)
{
    struct deferred *it = take_unused();
    unsigned number = atomic_load(&deferred.used);
    while (it == NULL && number < DEFERRED)
        if (atomic_compare_exchange_strong(&deferred.used, &number, number + 1))
            it = &deferred.first[number];
    while (it == NULL && make_deferred())
        it = take_unused();
    return it;
}

void heap_defer(void *pointer, uintptr_t caller, const char *call)
{
    struct deferred *it = take_deferred();
    if (it == NULL) {
        side_note_finding_lost();
        return;
    }
    it->pointer = pointer;
    it->caller = caller;
    it->call = call;
    put_in_front(&this_visit.waiting, it);
}
