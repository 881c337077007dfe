/* Explores what threads do that share the stream: every order of their steps with a few preemptions, by a search in
   depth, or many orders by chance. A thread is a context of its own in one thread of the system. It goes on until it
   waits, except the points at which the explorer takes the processor away. So a run is determined by the choices at the
   points, and can be done again: the memory of the program is put back before each run. */
#define _GNU_SOURCE
#include "explore.h"
#include "explorer.h"

#include <link.h>
#include <stdarg.h>
#include <stdio.h>
#include <stdlib.h>
#include <string.h>
#include <sys/mman.h>
#include <ucontext.h>
#include <unistd.h>

/* A thread that has looked so often at what does not change waits for a change. */
enum { MAX_LOOKS = 200, MAX_SPINS = 1 << 20, MAX_CHOICES = 1 << 16, STACK_BYTES = 1 << 17, TLS_ROOM = 4096 };

enum doing { RUNS, RESTS, AWAITS_LOCK, IS_DONE };

struct choice {
    unsigned short taken, count;
};

struct thread {
    ucontext_t context;
    enum doing doing;
    struct lock *lock;    /* that it awaits */
    uint64_t seen;        /* the change after which it waits for another one */
    unsigned looks;       /* since that */
    bool is_impatient;    /* its naps take no time, until it changes something */
    unsigned disturbed;   /* no handler comes while this is not 0 */
    bool is_in_handler;
    jmp_buf landing;
    unsigned char tls[TLS_ROOM];
};

/* State that is not reset between runs. */
static struct explorer {
    struct thread threads[MAX_THREADS];
    ucontext_t caller;
    unsigned count, now;
    bool is_exploring;
    bool is_child;
    uint64_t changes;
    struct choice choices[MAX_CHOICES];
    unsigned made, known; /* in this run, and of a run before */
    unsigned preemptions, handlers;
    struct search search;
    uint64_t draws;
    char wrong[512];
    bool lists_steps;
    unsigned char *first_memory, first_tls[TLS_ROOM];
    unsigned char *tls;
    size_t tls_bytes;
} *it;

extern char __data_start[], _end[];

static struct thread *self(void)
{
    return &it->threads[it->now];
}

void explore_fail(const char *format, ...)
{
    va_list values;
    va_start(values, format);
    if (it->wrong[0] == 0)
        vsnprintf(it->wrong, sizeof it->wrong, format, values);
    va_end(values);
}

bool explore_has_failed(void)
{
    return it->wrong[0] != 0;
}

bool explore_lists(void)
{
    return it->lists_steps;
}

static void list_step(const char *what, const char *function, int line)
{
    if (it->lists_steps)
        printf("    %u%s %s:%d: %s\n", it->now, self()->is_in_handler ? " handler" : "", function, line, what);
}

/* Choices. */

static uint64_t draw(void)
{
    it->draws ^= it->draws << 13;
    it->draws ^= it->draws >> 7;
    return it->draws ^= it->draws << 17;
}

/* One of this many: the first is the usual one, and only that has no cost. */
static unsigned choose(unsigned count, bool is_free)
{
    if (count < 2)
        return 0;
    if (it->made == MAX_CHOICES) {
        explore_fail("a run without an end");
        return 0;
    }
    struct choice *choice = &it->choices[it->made];
    if (it->made++ >= it->known) {
        bool is_usual = it->search.is_random && !is_free && draw() % it->search.rareness != 0;
        choice->taken = it->search.is_random && !is_usual ? (unsigned short)(draw() % count) : 0;
        choice->count = (unsigned short)count;
        it->known = it->made;
    }
    return choice->taken;
}

/* Goes back to the last choice that can be made in another way. False: there is none. */
static bool next_choices(void)
{
    while (it->known > 0) {
        struct choice *last = &it->choices[it->known - 1];
        if (++last->taken < last->count)
            return true;
        it->known--;
    }
    return false;
}

/* Threads. */

static bool can_run(const struct thread *thread)
{
    switch (thread->doing) {
    case RUNS:
        return true;
    case RESTS:
        return thread->seen != it->changes;
    case AWAITS_LOCK:
        return thread->lock->state == LOCK_FREE;
    default:
        return false;
    }
}

static void go_to(unsigned next)
{
    unsigned before = it->now;
    if (next == before)
        return;
    memcpy(it->threads[before].tls, it->tls, it->tls_bytes);
    it->now = next;
    memcpy(it->tls, it->threads[next].tls, it->tls_bytes);
    if (it->lists_steps)
        printf("  thread %u goes on\n", next);
    swapcontext(&it->threads[before].context, &it->threads[next].context);
}

/* The threads that can go on, this one first. */
static unsigned find_others(unsigned *others, bool with_self)
{
    unsigned count = 0;
    if (with_self)
        others[count++] = it->now;
    for (unsigned i = 0; i < it->count; i++)
        if (i != it->now && can_run(&it->threads[i]))
            others[count++] = i;
    return count;
}

/* This thread can't go on: another one does. If none can, time passes, and a nap is over. */
static void leave(void)
{
    unsigned others[MAX_THREADS];
    unsigned count = find_others(others, can_run(self()));
    for (unsigned i = 0; count == 0 && i < it->count; i++)
        if (it->threads[i].doing == RESTS) {
            it->threads[i].is_impatient = true;
            others[count++] = i;
        }
    if (count == 0) {
        bool is_over = true;
        for (unsigned i = 0; i < it->count; i++)
            is_over &= it->threads[i].doing == IS_DONE;
        if (!is_over)
            explore_fail("no thread can go on");
        setcontext(&it->caller);
    }
    go_to(others[choose(count, true)]);
    self()->doing = RUNS;
}

static void run_handler(void)
{
    struct thread *me = self();
    me->is_in_handler = true;
    world_handle(it->now);
    me->is_in_handler = false;
}

void explore_point(const char *what, const char *function, int line)
{
    unsigned others[MAX_THREADS];
    if (!it->is_exploring)
        return;
    struct thread *me = self();
    if (explore_has_failed())
        setcontext(&it->caller);
    bool may_preempt = !me->is_impatient && !it->is_child && it->preemptions < it->search.preemptions;
    bool may_handle = may_preempt && it->handlers < it->search.handlers && me->disturbed == 0 && !me->is_in_handler;
    unsigned count = may_preempt ? find_others(others, true) : 1;
    unsigned chosen = choose(count + may_handle, false);
    if (chosen != 0)
        it->preemptions++;
    if (chosen != 0 && chosen == count) {
        it->handlers++;
        run_handler();
    } else if (chosen != 0) {
        go_to(others[chosen]);
        self()->doing = RUNS;
    }
    list_step(what, function, line);
}

void explore_look(const char *what, const char *function, int line)
{
    if (!it->is_exploring)
        return;
    struct thread *me = self();
    if (me->seen != it->changes) {
        me->seen = it->changes;
        me->looks = 0;
    } else if (++me->looks > MAX_SPINS) {
        explore_fail("%s looks for ever: %s", function, what);
    } else if (me->looks > MAX_LOOKS && !me->is_impatient) {
        unsigned others[MAX_THREADS];
        me->doing = RESTS;
        if (find_others(others, false) != 0)
            leave();
        me->doing = RUNS;
        return;
    }
    explore_point(what, function, line);
}

void explore_changed(void)
{
    it->changes++;
    if (it->is_exploring)
        self()->is_impatient = false;
}

void explore_rest(void)
{
    struct thread *me = self();
    if (!it->is_exploring || me->is_impatient)
        return;
    bool may_time_out = it->search.times_out && !it->is_child && it->preemptions < it->search.preemptions;
    if (choose(1 + may_time_out, false) != 0) {
        it->preemptions++;
        me->is_impatient = true;
        return;
    }
    me->doing = RESTS;
    me->seen = it->changes;
    leave();
}

bool explore_lock_try(struct lock *lock)
{
    EXPLORE_LOOK("try a lock");
    if (lock->state != LOCK_FREE)
        return false;
    lock->state = LOCK_HELD;
    explore_changed();
    return true;
}

void explore_lock_take(struct lock *lock)
{
    EXPLORE_POINT("take a lock");
    while (lock->state != LOCK_FREE) {
        if (!it->is_exploring) {
            explore_fail("a lock is held at the end");
            return;
        }
        self()->doing = AWAITS_LOCK;
        self()->lock = lock;
        leave();
    }
    lock->state = LOCK_HELD;
    explore_changed();
}

void explore_lock_give(struct lock *lock)
{
    EXPLORE_POINT("give a lock");
    lock->state = LOCK_FREE;
    explore_changed();
}

unsigned explore_thread(void)
{
    return it->now;
}

void explore_disturb(int change)
{
    self()->disturbed += (unsigned)change;
}

jmp_buf *explore_landing(void)
{
    return &self()->landing;
}

void explore_land(void)
{
    self()->is_in_handler = false;
    longjmp(self()->landing, 1);
}

void explore_stay_alone(void)
{
    for (unsigned i = 0; i < it->count; i++)
        if (i != it->now)
            it->threads[i].doing = IS_DONE;
    it->is_child = true;
}

static _Noreturn void end_child(void)
{
    if (it->lists_steps && explore_has_failed())
        printf("  the child: %s\n", it->wrong);
    fflush(stdout);
    _exit(explore_has_failed());
}

static void run_thread(void)
{
    world_run(it->now);
    self()->doing = IS_DONE;
    explore_changed();
    leave();
}

/* Runs. */

static void begin_thread(unsigned number)
{
    static unsigned char *stacks;
    struct thread *thread = &it->threads[number];
    if (stacks == NULL) {
        stacks = mmap(NULL, MAX_THREADS * (size_t)STACK_BYTES, PROT_READ | PROT_WRITE, MAP_PRIVATE | MAP_ANONYMOUS,
                      -1, 0);
        return;
    }
    getcontext(&thread->context);
    thread->context.uc_stack.ss_sp = stacks + (size_t)number * STACK_BYTES;
    thread->context.uc_stack.ss_size = STACK_BYTES;
    thread->context.uc_link = NULL;
    makecontext(&thread->context, run_thread, 0);
    thread->doing = RUNS;
    thread->seen = UINT64_MAX;
    thread->looks = thread->disturbed = 0;
    thread->is_impatient = thread->is_in_handler = false;
    memcpy(thread->tls, it->first_tls, it->tls_bytes);
}

static void run_once(unsigned threads)
{
    volatile bool was_run = false;
    memcpy(__data_start, it->first_memory, (size_t)(_end - __data_start));
    memcpy(it->tls, it->first_tls, it->tls_bytes);
    it->wrong[0] = 0;
    it->count = threads;
    it->changes = it->made = it->preemptions = it->handlers = it->now = 0;
    world_begin();
    for (unsigned i = 0; i < threads; i++)
        begin_thread(i);
    it->is_exploring = true;
    getcontext(&it->caller);
    if (!was_run) {
        was_run = true;
        unsigned first = choose(threads, true);
        it->now = first;
        setcontext(&it->threads[first].context);
    }
    it->is_exploring = false;
    it->now = MAX_THREADS - 1; /* none of them */
    memcpy(it->tls, it->first_tls, it->tls_bytes);
    if (!explore_has_failed())
        world_end();
    if (it->is_child)
        end_child();
}

static int find_tls(struct dl_phdr_info *info, size_t size, void *unused)
{
    (void)size, (void)unused;
    for (int i = 0; i < info->dlpi_phnum; i++)
        if (info->dlpi_phdr[i].p_type == PT_TLS && info->dlpi_tls_data != NULL) {
            it->tls = info->dlpi_tls_data;
            it->tls_bytes = info->dlpi_phdr[i].p_memsz;
        }
    return 1; /* of the program alone */
}

void explore_begin(void)
{
    size_t bytes = (size_t)(_end - __data_start);
    it = mmap(NULL, sizeof *it + bytes, PROT_READ | PROT_WRITE, MAP_PRIVATE | MAP_ANONYMOUS, -1, 0);
    it->first_memory = (unsigned char *)(it + 1);
    dl_iterate_phdr(find_tls, NULL);
    begin_thread(0); /* the stacks */
}

/* The memory as it is now is that of the beginning of each run. */
static void keep_memory(void)
{
    memcpy(it->first_memory, __data_start, (size_t)(_end - __data_start));
    memcpy(it->first_tls, it->tls, it->tls_bytes);
}

/* The same run again, with its steps. */
static void list_run(unsigned threads, uint64_t runs)
{
    char wrong[sizeof it->wrong];
    memcpy(wrong, it->wrong, sizeof wrong);
    it->known = it->made;
    it->lists_steps = true;
    run_once(threads);
    it->lists_steps = false;
    printf("run %llu: %s\n", (unsigned long long)runs, wrong);
}

uint64_t explore(unsigned threads, const struct search *search, uint64_t most)
{
    uint64_t runs = 0;
    keep_memory();
    it->search = *search;
    it->draws = search->seed;
    it->known = 0;
    do {
        run_once(threads);
        runs++;
        if (explore_has_failed()) {
            list_run(threads, runs);
            return 0;
        }
        if (search->is_random)
            it->known = 0;
        if (runs == most)
            break;
    } while (search->is_random || next_choices());
    return runs;
}
