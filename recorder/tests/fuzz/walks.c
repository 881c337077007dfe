/* Threads call functions, drawn, with and without frame pointers, through the C library, and in handlers of signals
   that come at any time and may leave by a jump. Each walk leads to the same stack as one that knows of none before. */
#define _GNU_SOURCE
#include <pthread.h>
#include <setjmp.h>
#include <signal.h>
#include <stdbool.h>
#include <stdint.h>
#include <stdio.h>
#include <stdlib.h>
#include <string.h>
#include <sys/time.h>

#include "libc/library.h"
#include "shadow/mapping.h"
#include "stacks/own_stack.h"
#include "stacks/unwinding.h"

enum { TURNS = 40, THREADS = 4, ROUNDS = 400, AGAIN = 8, MOST_DEPTH = 40, ITEMS = 8, ALT_STACK = 1 << 16 };

static void expect(bool holds, const char *what)
{
    if (holds)
        return;
    fprintf(stderr, "not as it should be: %s\n", what);
    _Exit(1);
}

/* What the other parts of the recorder would do. */

_Thread_local struct own_stack own_stack;
bool stack_has_grown(uintptr_t frame)
{
    return (void)frame, false;
}
bool is_in_own_file(uint64_t start, uint64_t size)
{
    (void)start, (void)size;
    return false;
}

struct library library;
extern int _dl_find_object(void *address, struct dl_find_object *found) __attribute__((weak));

static _Thread_local uint64_t draws;
static _Thread_local volatile sig_atomic_t may_jump, is_in_handler;
static _Thread_local sigjmp_buf leaves;
static _Atomic unsigned long known, walks_made;

static uint64_t draw(uint64_t below)
{
    draws ^= draws << 13;
    draws ^= draws >> 7;
    return (draws ^= draws << 17) % below;
}

/* From here, as if nothing were known: for a handler that has interrupted a walk nothing is. */
static __attribute__((noinline)) void walk_plainly(uintptr_t own, uintptr_t caller, struct stack *plain)
{
    uintptr_t before = atomic_exchange(&own_walks.walker, UINTPTR_MAX);
    unwind_from_call(own, own, caller, plain);
    unwind_end(plain, 0);
    atomic_store(&own_walks.walker, before);
}

#define LEAF __attribute__((noinline))
#if defined __clang__
#define WITHOUT_POINTER __attribute__((noinline))
#else
#define WITHOUT_POINTER __attribute__((noinline, optimize("omit-frame-pointer")))
#endif

static LEAF void leaf(void)
{
    struct stack plain, found;
    uintptr_t own = (uintptr_t)__builtin_frame_address(0), caller = (uintptr_t)__builtin_return_address(0);
    walk_plainly(own, caller, &plain);
    expect(plain.count > 1, "a stack");
    uint64_t place = walks_recall(own, own, caller);
    expect(place == 0 || place == (plain.hash | 1), "what stands for the stack");
    atomic_fetch_add(&walks_made, 1);
    atomic_fetch_add(&known, place != 0);
    if (place != 0)
        return;
    unwind_from_call(own, own, caller, &found);
    expect(found.count == plain.count && found.hash == plain.hash, "how many frames there are, and the hash");
    expect(memcmp(found.frames, plain.frames, plain.count * sizeof *plain.frames) == 0, "frames");
    unwind_end(&found, plain.hash | 1);
}

/* The functions. Each calls one of them, or none. */

static void go_on(unsigned depth);

static LEAF void with_room(unsigned depth)
{
    volatile char room[32 + 64];
    room[depth % 32] = 1;
    go_on(depth);
    room[depth % 32]++;
}

static LEAF void with_drawn_room(unsigned depth)
{
    volatile char room[1 + draw(200)];
    room[0] = 1;
    go_on(depth);
    room[0]++;
}

static volatile uint64_t sink;

static WITHOUT_POINTER void without_pointer(unsigned depth)
{
    uint64_t before = draw(1000);
    go_on(depth);
    sink = before + draw(10);
}

/* Many registers are saved, and that of frame pointers may have anything. */
static WITHOUT_POINTER void with_anything(unsigned depth)
{
    uint64_t one = draw(1000), two = draw(1000), three = draw(1000), four = draw(1000), five = one * two,
             six = one * three;
    go_on(depth);
    sink = one + two * three + four * five + six;
}

static _Thread_local unsigned depth_inside;

static int compare(const void *one, const void *other)
{
    if (depth_inside == 0)
        leaf();
    else
        go_on(depth_inside);
    return *(const int *)one - *(const int *)other;
}

static LEAF void through_library(unsigned depth)
{
    int items[ITEMS];
    for (int i = 0; i < ITEMS; i++)
        items[i] = (int)draw(100);
    depth_inside = depth > 3 ? 3 : depth;
    qsort(items, 2 + draw(2), sizeof *items, compare);
}

static LEAF void twice(unsigned depth)
{
    leaf();
    sink = depth;
    leaf();
}

static void go_on(unsigned depth)
{
    static void (*const calls[])(unsigned depth) = {
        with_room, with_drawn_room, without_pointer, with_anything, through_library, twice, go_on, go_on, go_on};
    if (depth == 0) {
        leaf();
        return;
    }
    calls[draw(sizeof calls / sizeof *calls)](depth - 1);
    if (draw(3) == 0)
        leaf();
}

static void handle(int number)
{
    (void)number;
    if (is_in_handler)
        return;
    is_in_handler = true;
    go_on((unsigned)draw(4));
    is_in_handler = false;
    if (may_jump && draw(4) == 0)
        siglongjmp(leaves, 1);
}

static void know_own_stack(void)
{
    pthread_attr_t attributes;
    void *low;
    size_t size;
    expect(pthread_getattr_np(pthread_self(), &attributes) == 0, "the thread");
    pthread_attr_getstack(&attributes, &low, &size);
    pthread_attr_destroy(&attributes);
    own_stack = (struct own_stack){
        .low = (uintptr_t)low, .top = (uintptr_t)low + size, .readable = (uintptr_t)low + size};
}

static void *run(void *number)
{
    stack_t other = {.ss_sp = malloc(ALT_STACK), .ss_size = ALT_STACK}, none = {.ss_flags = SS_DISABLE};
    know_own_stack();
    draws = 12345 + (uintptr_t)number;
    sigaltstack(&other, NULL);
    uint64_t volatile drawn = draws;
    for (volatile unsigned i = 0; i < ROUNDS; i++) {
        if (i % AGAIN == 0)
            drawn = draws;
        draws = drawn;
        if (sigsetjmp(leaves, 1) == 0) {
            may_jump = true;
            go_on((unsigned)draw(MOST_DEPTH));
            if (draw(16) == 0)
                pthread_kill(pthread_self(), draw(2) ? SIGUSR1 : SIGUSR2);
        }
        may_jump = false;
        if (i % 100 == 0)
            unwinding_modules_changed();
    }
    sigset_t all;
    sigfillset(&all);
    pthread_sigmask(SIG_BLOCK, &all, NULL);
    sigaltstack(&none, NULL);
    free(other.ss_sp);
    walks_give();
    return NULL;
}

int main(void)
{
    struct sigaction here = {.sa_handler = handle}, there = {.sa_handler = handle, .sa_flags = SA_ONSTACK};
    struct itimerval often = {{0, 1000}, {0, 1000}};
    pthread_t threads[THREADS];
    library._dl_find_object = _dl_find_object;
    if (library._dl_find_object == NULL)
        return 0; /* nothing says where rules are */
    sigaction(SIGVTALRM, &here, NULL);
    sigaction(SIGUSR1, &here, NULL);
    sigaction(SIGUSR2, &there, NULL);
    expect(setitimer(ITIMER_VIRTUAL, &often, NULL) == 0, "a timer");
    for (uintptr_t turn = 0; turn < TURNS; turn++) {
        for (uintptr_t i = 0; i < THREADS; i++)
            expect(pthread_create(&threads[i], NULL, run, (void *)(turn * THREADS + i)) == 0, "a thread");
        for (unsigned i = 0; i < THREADS; i++)
            pthread_join(threads[i], NULL);
    }
    expect(known > walks_made / 2, "walks that are known");
    return 0;
}
