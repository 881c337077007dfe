/* Four threads go to coroutines and back, each to one that another thread may have left. What a coroutine has in the
   shadow of its stack is away as long as it waits, and is there again, or has been lost, once it goes on. */
#include <pthread.h>
#include <stdatomic.h>
#include <stdio.h>
#include <stdlib.h>
#include <string.h>
#include <sys/mman.h>

#include "base/system.h"
#include "heap/heap.h"
#include "process/threads.h"
#include "shadow/shadow.h"
#include "stacks/own_stack.h"
#include "stacks/unwinding.h"
#include "stream/state.h"

enum { THREADS = 4, COROUTINES = 64, STEPS = 20000, STACK_SIZE = 1 << 12, FRAMES = 1 << 10, OWN_AT = 1 << 23 };
/* Nothing lies there but their shadow. */
#define STACKS_AT ((uintptr_t)1 << 32)

static void expect(bool holds, const char *what)
{
    if (holds)
        return;
    fprintf(stderr, "not as it should be: %s\n", what);
    exit(1);
}

/* What the other parts of the recorder would do. */

_Thread_local struct own_stack own_stack;
uintptr_t heap_end_around(uintptr_t address) { return address; }
uintptr_t heap_start_around(uintptr_t address) { return address; }
void fake_frames_left(uintptr_t low, uintptr_t top)
{
    (void)low, (void)top;
}
bool stack_note_rights(uintptr_t start, size_t size, bool can_be_read) { return start == size && can_be_read; }
void init_order_ends(void) {}
void fake_context_begins(uintptr_t low, uintptr_t top) { (void)low, (void)top; }
bool recorder_is_own_process(void) { return true; }
union stream_page stream_page __attribute__((aligned(MOST_PAGE)));
bool stack_has_grown(uintptr_t frame)
{
    return (void)frame, false;
}
bool unwind_to(uintptr_t frame, uintptr_t target, struct frames_between *found)
{
    *found = (struct frames_between){.pieces = {{frame, frame}}, .count = 1, .end = target};
    return false;
}
void shadow_clear(uint64_t address, uint64_t size)
{
    memset((void *)shadow_of(address), 0, (size + GRANULE - 1) / GRANULE);
}

struct coroutine {
    struct span stack;
    uintptr_t frame; /* in which it waits; 0: it has not begun */
    bool is_said;    /* where its stack lies */
};

static _Atomic(struct coroutine *) waiting[COROUTINES];

static bool has_shades(struct span frames, unsigned char shade)
{
    for (uintptr_t at = frames.low; at < frames.top; at += GRANULE)
        if (*shadow_of(at) != shade)
            return false;
    return true;
}

/* From this thread's own stack to a coroutine, and back. */
static void visit(struct coroutine *it, uint64_t draw)
{
    uintptr_t own = own_stack.low + STACK_SIZE / 2;
    if (it->frame == 0 || draw % 32 == 0) {
        stack_begins(it->stack);
        it->frame = 0;
    }
    struct span waited = {it->frame != 0 ? it->frame : it->stack.top, it->stack.top};
    struct span said = it->is_said ? it->stack : (struct span){0, 0};
    stack_switches(&(struct stack_switch){.frame = own, .target = waited.low - GRANULE, .to = said, .goes_on = true});
    expect(has_shades(waited, SHADE_LEFT) || has_shades(waited, 0), "what comes back");
    shadow_clear(waited.low, waited.top - waited.low); /* those frames return */
    it->frame = it->stack.top - FRAMES / 2 - draw / 32 % (FRAMES / 2) / GRANULE * GRANULE;
    struct span frames = {it->frame, it->stack.top};
    memset((void *)shadow_of(frames.low), SHADE_LEFT, (frames.top - frames.low) / GRANULE);
    stack_switches(&(struct stack_switch){.frame = it->frame, .target = own, .from = said, .goes_on = true});
    expect(has_shades(it->stack, 0), "the stack of a coroutine that waits");
}

static void *run(void *number)
{
    uint64_t draws = 12345 + (uintptr_t)number;
    own_stack.low = STACKS_AT + OWN_AT + (uintptr_t)number * STACK_SIZE;
    own_stack.top = own_stack.low + STACK_SIZE;
    struct coroutine *mine = NULL;
    for (unsigned step = 0; step < STEPS; step++) {
        draws ^= draws << 13;
        draws ^= draws >> 7;
        draws ^= draws << 17;
        mine = atomic_exchange(&waiting[draws % COROUTINES], mine);
        if (mine != NULL)
            visit(mine, draws / COROUTINES);
        if (step % 64 == 0)
            stack_frames_left(own_stack.low);
    }
    return NULL;
}

int main(void)
{
    static struct coroutine coroutines[COROUTINES];
    pthread_t threads[THREADS];
    void *shadow = (void *)(uintptr_t)shadow_of(STACKS_AT);
    int flags = MAP_PRIVATE | MAP_ANONYMOUS | MAP_FIXED_NOREPLACE;
    long mapped = system_mmap(shadow, 2 * OWN_AT / GRANULE, PROT_READ | PROT_WRITE, flags, -1, 0);
    expect(mapped == (long)shadow, "the shadow");
    for (unsigned i = 0; i < COROUTINES; i++) {
        uintptr_t low = STACKS_AT + i * (uintptr_t)STACK_SIZE;
        coroutines[i] = (struct coroutine){.stack = {low, low + STACK_SIZE}, .is_said = i % 2 == 0};
        waiting[i] = &coroutines[i];
    }
    for (uintptr_t i = 0; i < THREADS; i++)
        expect(pthread_create(&threads[i], NULL, run, (void *)i) == 0, "a thread");
    for (unsigned i = 0; i < THREADS; i++)
        pthread_join(threads[i], NULL);
    return 0;
}
