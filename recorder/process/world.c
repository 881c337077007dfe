/* The others are stopped by a signal if they stay stopped, or can't be traced: that works under a debugger and where
   tracing is forbidden. It is the signal by which the C library changes the user of all threads: the library lets no
   program block it, and debuggers pass it on without a word. What the library itself sends by it goes on to the
   library's handler. `world` has a slot for each thread that was asked to stop. */
#define _GNU_SOURCE
#include "process/world.h"

#include <errno.h>
#include <linux/futex.h>
#include <stdatomic.h>
#include <sys/mman.h>

#include "base/actions.h"
#include "base/disturbance.h"
#include "base/platform.h"
#include "base/system.h"
#include "environment/other_threads.h"
#include "process/tracer.h"
#include "stream/state.h"

/* The state of a thread that was asked to stop. `context` is released by the thread, once it has stopped. */
struct slot {
    pid_t thread;
    bool is_gone;
    _Atomic uintptr_t control;
    const ucontext_t *_Atomic context;
};

enum { MAX_SLOTS = 1 << 16 };
/* For how long threads are waited for; and one that sleeps with the signal blocked, as the C
   library does for a moment. */
enum { PATIENCE_MS = 3000, DEAF_PATIENCE_MS = 30 };

/* The allocator's lock guards all fields except the atomic ones. */
static struct {
    /* Grows when threads are to stop, and when they go on. Who comes late finds that the round is closed. */
    _Atomic uint32_t round;
    _Atomic bool is_closed;
    struct slot *_Atomic slots;
    uint32_t first, count; /* those of this round, and up to where slots were used */
    bool has_failed, has_late; /* a thread was not asked; one may still come to its slot */
    void (*_Atomic before)(int, siginfo_t *, void *); /* the handler that there was */
    _Atomic pid_t stopper; /* the thread that has stopped the others; 0: none has */
    bool is_traced;        /* they are stopped by the tracer */
} world;

uintptr_t world_own_control(void)
{
    return processor_thread_pointer();
}

/* What the signal brings: the round, and the number of the slot. */
static uint64_t asked_of(uint32_t round, uint32_t slot)
{
    return (uint64_t)round << 32 | slot;
}

static void wait_in(uint32_t round)
{
    while (atomic_load(&world.round) == round)
        system_futex(&world.round, FUTEX_WAIT_PRIVATE, round);
}

/* It touches nothing that lies in a thread's own memory: a thread of `clone` may have none. */
static void on_stop(int number, siginfo_t *info, void *context)
{
    uint64_t asked = (uint64_t)(uintptr_t)info->si_value.sival_ptr;
    uint32_t round = (uint32_t)(asked >> 32);
    void (*before)(int, siginfo_t *, void *) = atomic_load(&world.before);
    if (info->si_code != SI_QUEUE || info->si_pid != system_getpid()) {
        if ((uintptr_t)before > (uintptr_t)SIG_IGN)
            before(number, info, context);
        return;
    }
    if (atomic_load(&world.round) != round || atomic_load(&world.is_closed))
        return;
    struct slot *slot = &atomic_load(&world.slots)[(uint32_t)asked];
    uintptr_t control = 0;
    THREAD_POINTER_BY_SYSTEM(&control);
    atomic_store(&slot->control, control);
    atomic_store(&slot->context, context);
    wait_in(round);
}

static int ask(pid_t thread, uint32_t slot)
{
    siginfo_t info = {.si_signo = USER_SIGNAL, .si_code = SI_QUEUE};
    info.si_pid = system_getpid();
    info.si_value.sival_ptr = (void *)(uintptr_t)asked_of(atomic_load(&world.round), slot);
    return (int)system_call4(SYS_rt_tgsigqueueinfo, info.si_pid, thread, USER_SIGNAL, (long)&info);
}

static struct slot *slot_at(uint32_t number)
{
    return &atomic_load(&world.slots)[number];
}

static bool was_asked(pid_t thread)
{
    for (uint32_t i = world.first; i < world.count; i++)
        if (slot_at(i)->thread == thread)
            return true;
    return false;
}

/* Whether a thread is an emulator's own, which takes no signal of those that it passes on. */
static bool is_of_emulator(pid_t thread)
{
#if MAY_BE_EMULATED
    return processor_is_emulated((uintptr_t)__builtin_frame_address(0)) && other_threads_is_deaf(thread, SIGHUP);
#else
    (void)thread;
    return false;
#endif
}

/* Asks a thread to stop that was not asked yet. There may be no room for another pending signal: then it is asked
   later. */
static void visit_running(pid_t thread, void *found)
{
    if (was_asked(thread) || is_of_emulator(thread))
        return;
    *(bool *)found = true;
    if (world.count == MAX_SLOTS) {
        world.has_failed = true;
        return;
    }
    struct slot *slot = slot_at(world.count);
    slot->thread = thread;
    slot->is_gone = false;
    atomic_store(&slot->context, NULL);
    int error = ask(thread, world.count);
    if (error == 0)
        world.count++;
    else if (error != -EAGAIN && (error != -ESRCH || other_threads_has(thread)))
        world.has_failed = true;
}

static uint64_t milliseconds(void)
{
    struct timespec now = {0, 0};
    system_clock_gettime(CLOCK_MONOTONIC, &now);
    return (uint64_t)now.tv_sec * 1000 + (uint64_t)now.tv_nsec / 1000000;
}

static void rest(unsigned looks)
{
    enum { FIRST_NS = 20000, MOST_NS = 1000000, MOST_SHIFT = 6 };
    long span = (long)FIRST_NS << (looks < MOST_SHIFT ? looks : MOST_SHIFT);
    system_nanosleep(&(struct timespec){0, span < MOST_NS ? span : MOST_NS});
}

/* Whether a thread has stopped, or ends; one that does not come soon is looked for. */
static bool has_stopped(struct slot *slot, unsigned looks)
{
    enum { SOON = 8 };
    if (!slot->is_gone && atomic_load(&slot->context) == NULL && looks > SOON)
        slot->is_gone = !other_threads_has(slot->thread);
    return slot->is_gone || atomic_load(&slot->context) != NULL;
}

/* Whether a thread cannot be stopped: it was so at each look since a time, which is 0 before the first. */
static bool is_deaf(const struct slot *slot, uint64_t *since)
{
    uint64_t now = milliseconds();
    if (!other_threads_is_deaf(slot->thread, USER_SIGNAL))
        *since = 0;
    else if (*since == 0)
        *since = now;
    return *since != 0 && now - *since >= DEAF_PATIENCE_MS;
}

/* Until all that were asked have stopped. False: one can't be stopped, or not in time. */
static bool wait_for_all(uint64_t end)
{
    unsigned looks = 0;
    uint64_t deaf_since = 0;
    for (uint32_t i = world.first; i < world.count;) {
        struct slot *slot = slot_at(i);
        if (has_stopped(slot, looks)) {
            i++;
            deaf_since = 0;
        } else if (milliseconds() > end || is_deaf(slot, &deaf_since)) {
            return false;
        } else {
            rest(looks++);
        }
    }
    return true;
}

/* Until all that were found have stopped, and then no other is there: one may have been created by one that still
   ran. */
static const char *stop_all(void)
{
    static const char does_not_stop[] = "a thread does not stop";
    uint64_t end = milliseconds() + PATIENCE_MS;
    for (;;) {
        bool found = false;
        if (!other_threads_visit(visit_running, &found))
            return "the system does not say which threads there are";
        if (world.has_failed || !wait_for_all(end))
            return does_not_stop;
        if (!found)
            return NULL;
        if (milliseconds() > end)
            return does_not_stop;
    }
}

static bool find_slots(void)
{
    if (atomic_load(&world.slots) == NULL) {
        int flags = MAP_PRIVATE | MAP_ANONYMOUS | MAP_NORESERVE;
        long made = system_mmap(NULL, MAX_SLOTS * sizeof(struct slot), PROT_READ | PROT_WRITE, flags, -1, 0);
        if (made < 0)
            return false;
        atomic_store(&world.slots, (struct slot *)made);
    }
    return true;
}

static bool take_signal(struct system_action *old)
{
    if (action_handle(USER_SIGNAL, on_stop, ~(uint64_t)0, old) != 0)
        return false;
    if (old->handler != on_stop)
        atomic_store(&world.before, old->handler);
    return true;
}

/* If there was none before, ours stays: a thread that comes late would end the process. */
static void give_signal_back(const struct system_action *old)
{
    if ((uintptr_t)old->handler > (uintptr_t)SIG_IGN)
        action_set(USER_SIGNAL, old, NULL);
}

/* Most exits ask the system nothing. */
bool world_is_stopped(void)
{
    pid_t stopper = atomic_load(&world.stopper);
    return stopper != 0 && stopper == system_gettid();
}

static const char *stop(void)
{
    struct system_action old;
    if (!has_other_threads())
        return NULL;
    if (!find_slots())
        return "there is no memory for it";
    if (!take_signal(&old))
        return "the system takes no handler of the signal that stops threads";
    const char *why = stop_all();
    if (why == NULL)
        give_signal_back(&old);
    return why;
}

const char *world_stop(bool is_end)
{
    if (world_is_stopped())
        return NULL;
    if (world.has_late)
        world.first = world.count;
    world.count = world.first;
    world.has_failed = false;
    stream_lock();
    atomic_store(&world.stopper, system_gettid());
    atomic_store(&world.is_closed, false);
    atomic_fetch_add(&world.round, 1);
    const char *why = stop();
    world.has_late = why != NULL;
    atomic_store(&world.is_closed, world.has_late);
    if (why != NULL && !is_end)
        world_go_on();
    stream_unlock();
    return why;
}

void world_go_on(void)
{
    atomic_store(&world.stopper, 0);
    atomic_fetch_add(&world.round, 1);
    if (world.count != world.first) /* that many were asked to stop */
        system_futex(&world.round, FUTEX_WAKE_PRIVATE, INT32_MAX);
}

struct work {
    void (*work)(void *with);
    void *with;
};

static void work_traced(void *of)
{
    const struct work *it = of;
    world.is_traced = true;
    it->work(it->with);
    world.is_traced = false;
}

const char *world_stop_for(void (*work)(void *with), void *with, bool is_end)
{
    struct work it = {work, with};
    if (!is_end && !world_is_stopped() && has_other_threads() && tracer_stop_for(work_traced, &it))
        return NULL;
    const char *why = world_stop(is_end);
    if (why == NULL)
        work(with);
    if (why == NULL && !is_end)
        world_go_on();
    return why;
}

void world_visit(void (*visit)(const struct stopped_thread *thread))
{
    if (world.is_traced) {
        tracer_visit(visit);
        return;
    }
    for (uint32_t i = world.first; i < world.count; i++) {
        struct slot *slot = slot_at(i);
        struct stopped_thread thread = {atomic_load(&slot->context), atomic_load(&slot->control)};
        if (thread.context != NULL)
            visit(&thread);
    }
}
