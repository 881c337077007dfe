/* The stacks of threads. Their shadow is cleared where frames are left without their returns, and where a stack
   becomes memory for something else: redzones that stay would be those of nobody. To clear too much misses a fault;
   to clear too little reports one that is none. */
#define _GNU_SOURCE
#include "process/threads.h"

#include <errno.h>
#include <pthread.h>
#include <signal.h>
#include <stdatomic.h>
#include <string.h>
#include <sys/resource.h>
#include <threads.h>
#include <unwind.h>

#include "environment/startup.h"
#include "process/init_order.h"
#include "process/signal_stack.h"
#include "process/waiting.h"
#include "libc/library.h"
#include "heap/heap.h"
#include "base/filters.h"
#include "base/behind.h"
#include "base/memory.h"
#include "base/own_code.h"
#include "base/platform.h"
#include "base/self.h"
#include "shadow/shadow.h"
#include "stacks/cfi.h"
#include "stacks/fake_stack.h"
#include "stacks/own_stack.h"
#include "stacks/stacks.h"
#include "stacks/thread_notes.h"
#include "stacks/unwinding.h"
#include "stacks/walks.h"
#include "stream/state.h"
#include "base/system.h"
#include "base/tables.h"

/* Of a stack in a block nothing beyond the block: there are others. */
static void clear(struct span frames)
{
    if (is_in_arena(frames.low)) {
        frames.low = frames.low / GRANULE * GRANULE;
        uintptr_t end = heap_end_around(frames.low) / GRANULE * GRANULE;
        frames.top = frames.top < end ? frames.top : end;
    }
    if (frames.low < frames.top)
        shadow_clear(frames.low, frames.top - frames.low);
}

static void clear_own_stack(void)
{
    if (own_stack.top != 0)
        shadow_clear(own_stack.low, own_stack.top - own_stack.low);
}

/* Other stacks, as far as the program has said where they lie: to which one this thread has switched, and from where on
   its own stack; and in the middle of a switch of a fiber, from where to where it goes. Zeros: none, or not known. */
static _Thread_local struct span switched, fiber_before, fiber_next;
static _Thread_local uintptr_t left_at;

static bool is_on_handlers_stack(uintptr_t frame, struct span *all)
{
    stack_t seen;
    if (system_call3(SYS_sigaltstack, 0, (long)&seen, 0) != 0 || !(seen.ss_flags & SS_ONSTACK))
        return false;
    *all = (struct span){(uintptr_t)seen.ss_sp, (uintptr_t)seen.ss_sp + seen.ss_size};
    return is_in(*all, frame);
}

bool stack_has_frame(uintptr_t frame, uintptr_t address)
{
    struct span all = {own_stack.low, own_stack.top};
    if (!is_in_arena(frame))
        return false;
    if (is_in(switched, frame))
        all = switched;
    else if (!is_on_own_stack(frame) && !is_on_handlers_stack(frame, &all))
        all = (struct span){heap_start_around(frame), heap_end_around(frame)}; /* the program has switched by itself */
    /* With the granule behind it: that is stated too (stream/saying.h). */
    return address >= frame && is_in(all, address) && heap_end_around(address) >= address + 2 * GRANULE;
}

/* As on the stack where this frame lies: that of handlers is left for the thread's own. */
static void leave_fakes(uintptr_t frame)
{
    struct span all = is_in(switched, frame) ? switched : (struct span){own_stack.low, own_stack.top};
    fake_frames_left(all.low, all.top);
}

/* The thread's last call of vfork: its stack pointer there, and the number of the child that has left frames since. A
   child of another kind of vfork, which nobody noted, has another number. Zeros: none. */
static _Thread_local struct {
    uintptr_t stack;
    pid_t child;
} vforked;

/* A child that calls it too shares the frames of its parent, whose call lies above. */
void stack_vforks(uintptr_t stack)
{
    if (!recorder_is_own_process())
        return;
    vforked.stack = stack;
    vforked.child = 0;
}

/* Below which place all frames are the child's, if this is a child of vfork; 0: it is none, or that is not known. */
static uintptr_t end_of_vforked(void)
{
    if (vforked.stack == 0)
        return 0;
    if (recorder_is_own_process())
        return vforked.stack = 0; /* the child is gone */
    pid_t child = system_getpid();
    if (vforked.child == 0)
        vforked.child = child;
    return vforked.child == child ? vforked.stack : 0;
}

/* What a child of vfork leaves on its parent's stack, whose own frames go on. False: all may be left. */
static bool leave_vforked(uintptr_t frame)
{
    uintptr_t end = end_of_vforked();
    struct span all;
    if (frame >= end)
        return false;
    bool is_same = is_on_handlers_stack(frame, &all) ? is_in(all, end)
                   : is_on_own_stack(frame)          ? is_on_own_stack(end)
                                                     : is_in(switched, frame) && is_in(switched, end);
    if (is_same)
        clear((struct span){frame, end});
    return is_same;
}

#ifndef IS_STATIC
static void own_Unwind_SetIP(struct _Unwind_Context *context, _Unwind_Ptr address);
#endif

/* Whether what leaves frames comes by here: no jump that the compiler makes itself, behind the call from which this is
   called; and nothing in a static program, or no exception with an unwinder of its own. */
static bool is_seen(uintptr_t frame)
{
#ifdef IS_STATIC
    (void)frame;
    return false;
#else
    unsigned char code[JUMP_CODE] = {0};
    struct known_page page = {0};
    uintptr_t next = CODE_ADDRESS(((const uintptr_t *)frame)[1]);
    memcpy(code, (const void *)next, memory_is_there(&page, next, sizeof code) ? sizeof code : PAGE - next % PAGE);
    return !processor_jumps(code) && (uintptr_t)&_Unwind_SetIP == (uintptr_t)&own_Unwind_SetIP;
#endif
}

/* All frames from here up, of the stack that the thread has switched to. */
static void clear_switched(uintptr_t frame)
{
    struct frames_between between;
    if (is_in(switched, frame)) {
        clear((struct span){frame, switched.top});
        return;
    }
    unwind_to(frame, 0, &between);
    clear(between.pieces[0]);
#ifdef IS_STATIC
    clear_own_stack(); /* a jump, which goes there, is not seen */
#endif
}

/* Nothing is recorded, so redzones that stay cost time alone. A call of the system may cost more: a filter of the
   program's may allow it none. */
static void leave_unrecorded(uintptr_t frame)
{
    if (is_on_own_stack(frame))
        shadow_clear(frame / PAGE * PAGE, own_stack.top - frame / PAGE * PAGE);
}

/* `is_call`: it is a call of the compilers', and what leaves frames may come by here once more, with its target. */
static void left_from(uintptr_t frame, bool is_call)
{
    struct span all;
    if (atomic_load_explicit(&stream_page.stream.is_idle, memory_order_relaxed)) {
        leave_unrecorded(frame);
        return;
    }
    leave_fakes(frame);
    if (leave_vforked(frame))
        return;
    if (is_on_handlers_stack(frame, &all)) {
        clear(all);
        clear_own_stack();
    } else if (is_on_own_stack(frame)) {
        uintptr_t here = frame / PAGE * PAGE;
        shadow_clear(here, own_stack.top - here);
    } else if (!is_call || !is_seen(frame)) {
        clear_switched(frame);
    }
}

/* Of a stack that the thread has switched to most frames may go on. */
void stack_frames_left(uintptr_t frame)
{
    left_from(frame, true);
}

void stack_left_by_child(uintptr_t frame)
{
    left_from(frame, false);
}

/* The frames below the place where a jump or a switch has come back to this thread's own stack. */
static void come_back(uintptr_t frame, uintptr_t from, uintptr_t target)
{
    if ((!is_on_own_stack(frame) || frame > target) && from != 0 && from < target)
        shadow_clear(from, target - from);
}

/* The newest stacks that contexts were made on: a switch may not say where a stack lies. Whoever changes one makes it
   empty first. For pages that were looked for it is noted where the stack was found. */
enum { MADE = 1 << 12, HINTS = 1 << 12 };
static struct made_stack {
    _Atomic uintptr_t low, top;
} *const made = TABLE(struct made_stack, contexts_made);
TABLE_HAS_ROOM(contexts_made, MADE * sizeof *made);
static _Atomic size_t made_count; /* so often one was added */
static _Atomic uint16_t *const hints = TABLE(_Atomic uint16_t, context_hints);
TABLE_HAS_ROOM(context_hints, HINTS * sizeof *hints);

static size_t made_used(void)
{
    size_t count = atomic_load_explicit(&made_count, memory_order_relaxed);
    return count < MADE ? count : MADE;
}

static bool is_made(size_t number, uintptr_t address, struct span *span)
{
    *span = (struct span){atomic_load(&made[number].low), atomic_load(&made[number].top)};
    return is_in(*span, address) && atomic_load(&made[number].low) == span->low;
}

static struct span made_around(uintptr_t address)
{
    _Atomic uint16_t *hint = &hints[address / PAGE % HINTS];
    size_t used = made_used();
    struct span span;
    if (used != 0 && is_made(atomic_load_explicit(hint, memory_order_relaxed), address, &span))
        return span;
    for (size_t i = 0; i < used; i++)
        if (is_made(i, address, &span)) {
            atomic_store_explicit(hint, (uint16_t)i, memory_order_relaxed);
            return span;
        }
    return (struct span){0, 0};
}

bool stack_is_own_frame(uintptr_t frame)
{
    stack_t seen = {.ss_flags = SS_DISABLE};
    system_sigaltstack(NULL, &seen);
    /* Without one nobody knows: in a handler the system says so of one with SS_AUTODISARM, on which that may be. */
    bool is_of_handlers = (seen.ss_flags & SS_DISABLE) || frame - (uintptr_t)seen.ss_sp < seen.ss_size;
    return is_on_own_stack(frame) && !is_of_handlers && !is_in(switched, frame) && made_around(frame).top == 0;
}

void stack_begins(struct span all)
{
    size_t number = MADE, used = made_used();
    clear(all);
    fake_context_begins(all.low, all.top);
    waiting_forget(all);
    for (size_t i = 0; i < used; i++)
        if (is_in(all, atomic_load(&made[i].low))) {
            atomic_store(&made[i].top, 0);
            number = i;
        }
    if (number == MADE)
        number = atomic_fetch_add(&made_count, 1) % MADE;
    atomic_store(&made[number].top, 0);
    atomic_store(&made[number].low, all.low);
    atomic_store(&made[number].top, all.top);
}

/* A switch that stays on its stack is a jump there, unless the caller goes on later. */
static void jump_within(const struct stack_switch *it)
{
    if (!it->goes_on)
        clear((struct span){it->frame, it->target});
}

static void leave(struct span stack_left, uintptr_t frame, bool goes_on)
{
    if (goes_on)
        waiting_keep(stack_left, frame);
    clear((struct span){frame, stack_left.top});
}

/* Which stack it goes to. On a thread's own there may have been an array that was made one, in a frame that is gone. */
static struct span stack_gone_to(const struct stack_switch *it)
{
    bool is_said = it->to.top != 0 || (it->says_stacks && is_on_own_stack(it->target));
    return is_said ? it->to : made_around(it->target);
}

void stack_switches(const struct stack_switch *it)
{
    struct span from = it->from.top != 0 || !is_in(switched, it->frame) ? it->from : switched, to = stack_gone_to(it);
    bool was_own = from.top == 0 && is_on_own_stack(it->frame);
    if (to.top == 0 ? is_in(from, it->target) : to.low == from.low) {
        jump_within(it);
        switched = from;
        return;
    }
    if (from.top != 0)
        leave(from, it->frame, it->goes_on);
    else if (was_own)
        left_at = it->frame;
    switched = to;
    if (to.top != 0)
        waiting_put_back(to, it->target);
    else if (is_on_own_stack(it->target) && was_own)
        jump_within(it);
    else if (is_on_own_stack(it->target))
        come_back(it->frame, left_at, it->target);
}

void stack_fiber_leaves(uintptr_t frame, bool goes_on, struct span next)
{
    struct span own = {own_stack.low, own_stack.top};
    fiber_before = is_in(switched, frame) ? switched : own;
    fiber_next = next;
    if (!goes_on && is_in(switched, frame))
        clear((struct span){frame, switched.top});
    if (!is_in(switched, frame))
        left_at = frame;
}

struct span stack_fiber_comes(void)
{
    bool is_own = fiber_next.low == own_stack.low || is_in(fiber_next, left_at);
    switched = is_own ? (struct span){0, 0} : fiber_next;
    return fiber_before;
}

#ifndef IS_STATIC

/* The data for a new thread wait in one of these until the thread has begun: a malloc here would be one that
   the program did not make. */
struct start {
    _Atomic bool is_taken;
    union {
        void *(*of_posix)(void *);
        int (*of_c11)(void *);
    } routine;
    void *argument;
    size_t size; /* of its stack */
    unsigned number;
    const struct filter *filters;
};

enum { STARTS = 256 };
static AS_TABLE struct start starts[STARTS];
static _Atomic int starts_used; /* as many at once, at most */
static pthread_key_t at_end;
static _Atomic bool has_key;

/* The C library calls it at the end of a thread, as the destructor of a key. */
static void end_thread(void *unused)
{
    (void)unused;
    fake_thread_ends();
    signal_stack_ends();
    walks_give();
    clear_own_stack();
    heap_thread_ends();
}

/* The first whole page of a stack of this size, below the page `most`. At the stack's end lies the thread-local memory,
   which may be larger than all that is left for frames. */
static uintptr_t low_of_thread(uintptr_t size, uintptr_t most)
{
    size_t local_size = 0, alignment;
    if (library._dl_get_tls_static_info != NULL)
        library._dl_get_tls_static_info(&local_size, &alignment);
    uintptr_t end = LOCAL_END(processor_thread_pointer(), local_size, library_control_size());
    uintptr_t low = page_above(end - size - 1);
    return low < most ? low : most;
}

/* In a thread that begins in this frame. Answers what it is to do. */
static struct start begin_thread(struct start *start, void *frame)
{
    struct start copy = {.routine = start->routine, .argument = start->argument};
    thread_begins(start->number);
    filters_inherit(start->filters);
    own_stack.top = page_above((uintptr_t)frame);
    own_stack.low = low_of_thread(start->size, own_stack.top - PAGE);
    if (is_in_arena(own_stack.low) && heap_end_around(own_stack.low) < own_stack.top)
        own_stack.top = heap_end_around(own_stack.low) / GRANULE * GRANULE;
    /* What the C library keeps of a thread lies at the upper end of its stack. */
    uintptr_t thread = PROCESSOR_THREAD(library_control_size());
    own_stack.readable = thread > own_stack.top ? thread : own_stack.top;
    atomic_store(&start->is_taken, false);
    shadow_clear(own_stack.low, own_stack.top - own_stack.low);
    library.pthread_setspecific(at_end, start);
    signal_stack_begins();
    return copy;
}

static void *run(void *of)
{
    IS_OWN_FRAME;
    struct start start = begin_thread(of, __builtin_frame_address(0));
    return start.routine.of_posix(start.argument);
}

static int run_of_c11(void *of)
{
    IS_OWN_FRAME;
    struct start start = begin_thread(of, __builtin_frame_address(0));
    return start.routine.of_c11(start.argument);
}

void threads_visit_waiting(void (*visit)(uintptr_t argument))
{
    for (int i = 0; i < atomic_load(&starts_used); i++)
        if (atomic_load(&starts[i].is_taken))
            visit((uintptr_t)starts[i].argument);
}

/* A free place in the table, taken; or null. */
static struct start *take_start(void)
{
    for (int i = 0; i < STARTS; i++) {
        int used = atomic_load(&starts_used);
        while (used <= i && !atomic_compare_exchange_weak(&starts_used, &used, i + 1))
            ;
        if (!atomic_exchange(&starts[i].is_taken, true))
            return &starts[i];
    }
    return NULL;
}

static size_t stack_size(const pthread_attr_t *attributes)
{
    size_t size = 0;
    pthread_attr_t usual;
    if (attributes != NULL) {
        library.pthread_attr_getstacksize(attributes, &size);
    } else if (library.pthread_getattr_default_np(&usual) == 0) {
        library.pthread_attr_getstacksize(&usual, &size);
        library.pthread_attr_destroy(&usual);
    }
    return size;
}

/* The library's function of this name, kept once it is found; or 0. */
static uintptr_t find_real(_Atomic uintptr_t *real, const char *name)
{
    static _Atomic bool is_made;
    uintptr_t found = atomic_load(real);
    if (found == 0 && (found = (uintptr_t)library_next(name)) != 0) {
        if (!atomic_exchange(&is_made, true) && library.pthread_key_create(&at_end, end_thread) == 0)
            atomic_store(&has_key, true);
        atomic_store(real, found);
    }
    return found;
}

/* The data for a thread that this caller creates; or null. */
static struct start *prepare(const pthread_attr_t *attributes, void *argument, uintptr_t caller)
{
    bool is_idle = atomic_load_explicit(&stream_page.stream.is_idle, memory_order_relaxed);
    init_order_ends();
    unsigned number = thread_create(is_idle ? 0 : call_site_of(caller));
    struct start *start = atomic_load(&has_key) ? take_start() : NULL;
    if (start == NULL)
        return NULL;
    start->argument = argument;
    start->filters = filters_own();
    start->size = stack_size(attributes);
    start->number = number;
    return start;
}

typedef void *routine_of(void *);
typedef int create(pthread_t *, const pthread_attr_t *, routine_of *, void *);

static int own_pthread_create(pthread_t *thread, const pthread_attr_t *attributes, routine_of *routine, void *argument)
{
    static _Atomic uintptr_t real;
    create *next = (create *)find_real(&real, "pthread_create");
    if (next == NULL)
        return EAGAIN;
    struct start *start = prepare(attributes, argument, CALLER());
    if (start == NULL)
        return next(thread, attributes, routine, argument);
    start->routine.of_posix = routine;
    int error = next(thread, attributes, run, start);
    if (error != 0)
        atomic_store(&start->is_taken, false);
    return error;
}

REPLACES int pthread_create(pthread_t *thread, const pthread_attr_t *attributes, routine_of *routine, void *argument)
    __attribute__((alias("own_pthread_create")));

typedef int create_of_c11(thrd_t *, thrd_start_t, void *);

static int own_thrd_create(thrd_t *thread, thrd_start_t routine, void *argument)
{
    static _Atomic uintptr_t real;
    create_of_c11 *next = (create_of_c11 *)find_real(&real, "thrd_create");
    if (next == NULL)
        return thrd_error;
    struct start *start = prepare(NULL, argument, CALLER());
    if (start == NULL)
        return next(thread, routine, argument);
    start->routine.of_c11 = routine;
    int result = next(thread, run_of_c11, start);
    if (result != thrd_success)
        atomic_store(&start->is_taken, false);
    return result;
}

REPLACES int thrd_create(thrd_t *thread, thrd_start_t routine, void *argument)
    __attribute__((alias("own_thrd_create")));

#if !defined IS_STATIC && !defined IS_PRELOAD

uintptr_t thread_function_behind(const char *name)
{
    static const struct behind rows[] = {
        {BEHIND(pthread_create, own_pthread_create, own_pthread_create)},
        {BEHIND(thrd_create, own_thrd_create, own_thrd_create)},
    };
    return behind_find(rows, sizeof rows / sizeof *rows, name);
}

#endif

/* A jump. If a library makes it, no call of the compilers' comes first; and only here it is known where it goes. */

#ifdef JUMP_SECRET
static const uintptr_t *jump_secret(void)
{
    static const uintptr_t *_Atomic secret;
    const uintptr_t *found = atomic_load(&secret);
    if (found == NULL)
        atomic_store(&secret, found = library_next(JUMP_SECRET));
    return found;
}
#endif

/* The stack pointer of a jmp_buf. */
static OF_PROGRAM uintptr_t target_of(const void *to)
{
    uintptr_t mixed;
    memcpy(&mixed, (const char *)to + JUMP_STACK_POINTER, sizeof mixed);
#ifdef JUMP_SECRET
    return processor_jump_target(mixed, jump_secret());
#else
    return processor_jump_target(mixed);
#endif
}

/* All frames between this one of the recorder's and a target that one of its callers has: on another stack, those of
   handlers for instance, up to where it was left, too. In the frame that goes on it may be a scope that goes on. False:
   nothing is known of the way there. */
static bool clear_between(uintptr_t frame, uintptr_t target)
{
    struct frames_between between;
    if (!unwind_to(frame, target, &between))
        return false;
    for (unsigned i = 0; i < between.count; i++)
        clear(between.pieces[i]);
    for (uintptr_t at = target; at < between.end; at += GRANULE)
        if (*shadow_of(at) == SHADE_SCOPE)
            *shadow_of(at) = 0;
    return true;
}

/* The stack that an address is on, if it is not the thread's own; zeros: that is not known. */
static struct span stack_around(uintptr_t address)
{
    if (is_in(switched, address))
        return switched;
    return is_on_own_stack(address) ? (struct span){0, 0} : made_around(address);
}

/* From the stack of handlers to a frame that is none of those that were interrupted, or not known to be one. False: it
   goes to another stack. */
static bool handlers_left(uintptr_t frame, uintptr_t target, struct span handlers)
{
    clear((struct span){frame, is_in(handlers, target) ? target : handlers.top});
    if (is_in(handlers, target))
        return true;
    if (is_in(switched, target))
        clear((struct span){switched.low, target});
    else if (switched.top != 0)
        leave(switched, switched.low, true);
    return is_in(switched, target);
}

/* To a frame that goes on, or on one stack. False: it goes to another one. A jump may lead back into a scope. */
static bool left_below(uintptr_t frame, uintptr_t target, struct span from, struct span to, bool is_jump)
{
    struct span handlers;
    bool was_own = is_on_own_stack(frame);
    if (was_own && is_on_own_stack(target) && frame < target) {
        shadow_clear(frame, target - frame);
        switched = to;
        return true;
    }
    bool was_handlers = is_on_handlers_stack(frame, &handlers), is_same = from.top != 0 && from.low == to.low;
    bool is_way_asked = was_handlers || (is_same && is_jump) || (from.top == 0 && !was_own);
    if (is_way_asked && clear_between(frame, target)) {
        if (!was_handlers || !is_in(handlers, target))
            switched = to;
        return true;
    }
    if (was_handlers)
        return handlers_left(frame, target, handlers);
    if (is_same)
        clear((struct span){frame, target});
    return is_same;
}

/* The frames below the target of a jump, or of an exception. A stack that is left may go on by a jump back. */
static void frames_left_below(uintptr_t frame, uintptr_t target, bool is_jump)
{
    struct span from = stack_around(frame), to = stack_around(target);
    leave_fakes(frame);
    leave_fakes(target);
    if (leave_vforked(frame) || left_below(frame, target, from, to, is_jump))
        return;
    if (from.top != 0)
        leave(from, frame, true);
    else if (is_on_own_stack(frame))
        left_at = frame;
    if (to.top != 0)
        waiting_put_back(to, target);
    else if (is_on_own_stack(target))
        come_back(frame, own_stack.low, target);
    switched = to;
}

typedef void jump(void *, int);

static jump *find_jump(jump *_Atomic *real, const char *name)
{
    jump *found = atomic_load(real);
    if (found == NULL)
        atomic_store(real, found = (jump *)(uintptr_t)library_next(name));
    return found;
}

#define JUMPS(name)                                                                                                    \
    static jump *_Atomic real_##name;                                                                                  \
    REPLACES _Noreturn void name(void *to, int value)                                                                  \
    {                                                                                                                  \
        jump *next = find_jump(&real_##name, #name);                                                                   \
        uintptr_t target = target_of(to);                                                                              \
        frames_left_below((uintptr_t)__builtin_frame_address(0), target, true);                                        \
        heap_left_by_jump(target);                                                                                     \
        next(to, value);                                                                                               \
        __builtin_unreachable();                                                                                       \
    }

JUMPS(longjmp)
JUMPS(_longjmp)
JUMPS(siglongjmp)
JUMPS(__longjmp_chk)

void threads_find_jumps(void)
{
    find_jump(&real_longjmp, "longjmp");
    find_jump(&real__longjmp, "_longjmp");
    find_jump(&real_siglongjmp, "siglongjmp");
    find_jump(&real___longjmp_chk, "__longjmp_chk");
#ifdef JUMP_SECRET
    jump_secret();
#endif
}

/* An exception comes to a frame: to one that catches it, or that has something to do before it goes on. The personality
   of a language calls this then. Where the stack pointer goes is the end of the frames that it leaves. */
static void own_Unwind_SetIP(struct _Unwind_Context *context, _Unwind_Ptr address)
{
    typedef void set(struct _Unwind_Context *, _Unwind_Ptr);
    typedef _Unwind_Word find(struct _Unwind_Context *);
    static set *_Atomic real;
    static find *_Atomic target;
    if (atomic_load(&real) == NULL) {
        atomic_store(&target, (find *)(uintptr_t)library_next("_Unwind_GetCFA"));
        atomic_store(&real, (set *)(uintptr_t)library_next("_Unwind_SetIP"));
    }
    find *find_target = atomic_load(&target);
    if (find_target != NULL)
        frames_left_below((uintptr_t)__builtin_frame_address(0), find_target(context), false);
    set *next = atomic_load(&real);
    next(context, address);
}

REPLACES void _Unwind_SetIP(struct _Unwind_Context *context, _Unwind_Ptr address)
    __attribute__((alias("own_Unwind_SetIP")));

#else

void threads_find_jumps(void)
{
}

void threads_visit_waiting(void (*visit)(uintptr_t argument))
{
    (void)visit;
}

#endif
