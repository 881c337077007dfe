/* Four threads allocate and free, also what another one has allocated, and look blocks up as it is done without the
   lock. What a thread has keeps its bytes, and is found with its size. One of them looks at all of the heap
   meanwhile. Threads end, whether they say so or not, and others take their shards. First the allocator goes
   forward: with a large quarantine no address is handed out twice, and freed memory stays bad; with a small one and
   with none it is used again. Then a snapshot comes in the middle, and all is in order. The whole is done without
   membarrier, too. */
#define _GNU_SOURCE
#include <pthread.h>
#include <stdio.h>
#include <stdlib.h>
#include <string.h>
#include <errno.h>
#include <linux/filter.h>
#include <linux/seccomp.h>
#include <stddef.h>
#include <sys/mman.h>
#include <sys/prctl.h>
#include <sys/syscall.h>
#include <sys/wait.h>
#include <unistd.h>

#include "base/system.h"
#include "libc/library.h"
#include "heap/families.h"
#include "heap/blocks.h"
#include "heap/heap.h"
#include "shadow/mapping.h"
#include "shadow/unused.h"
#include "stacks/own_stack.h"
#include "stream/keeping.h"
#include "stream/near.h"
#include "stream/record.h"
#include "stream/side.h"

enum { THREADS = 4, ROUNDS = 2, BLOCKS = 512, SHORT_LIVED = 32, SHARED = 32, STEPS = 4000, LARGEST = 3 * UNIT,
       HELD_BYTES = 1 << 20 };

/* What the other parts of the recorder would do. */

static const char is_alone = 0;
/* Time passes at each look at the clock: freed memory waits only for a few hundred calls. */
static int look_at_clock(int clock, struct timespec *now)
{
    static int looks;
    (void)clock;
    looks++;
    *now = (struct timespec){looks / 10, looks % 10 * 100000000};
    return 0;
}
struct library library = {.__libc_single_threaded = &is_alone, .clock_gettime = look_at_clock};
_Atomic bool halt_is_on, lean_is_on, telling_is_on, showing_is_on;
static void halt_at(enum code code, unsigned width, uint64_t address, uintptr_t caller, struct access *whole)
{
    (void)code, (void)width, (void)address, (void)caller, (void)whole;
}
static bool is_own_frame(uintptr_t frame) { return frame == 0; }
const struct above above = {.halt_at = halt_at, .is_own_frame = is_own_frame};
enum state stream_state(void) { return STATE_RECORDING; }
union stream_page stream_page;
bool stream_wake(void)
{
    return true;
}
void stream_stop(const char *why) { fprintf(stderr, "%s\n", why), exit(1); }
/* Of the thread that takes snapshots. */
static _Thread_local uint64_t events;
void record_region(enum code code, uint64_t address, uint64_t size) { (void)code, (void)address, (void)size, events++; }
void record_regions(enum code code, uint64_t address, uint64_t size) { (void)code, (void)address, (void)size; }
void record_poison(enum kind kind, uint64_t address, uint64_t size) { (void)kind, (void)address, (void)size, events++; }
bool families_differ(const struct block *block, const struct release *release)
{
    return (void)block, (void)release, false;
}
void families_look_at(const struct block *block, const struct release *release) { (void)block, (void)release; }
void families_note_refused(size_t size, uintptr_t caller, enum family family, bool is_too_big)
{
    (void)size, (void)caller, (void)family, (void)is_too_big;
}
void record_unused(uint64_t address, uint64_t size) { (void)address, (void)size; }
void record_free(uint64_t address) { (void)address, events++; }
void record_bad_free(uint64_t address, uintptr_t caller, const char *call)
{
    fprintf(stderr, "a bad %s of %llx from %llx\n", call, (unsigned long long)address, (unsigned long long)caller);
    exit(1);
}
void program_clear(void *to, size_t size)
{
    memset(to, 0, size);
}

void program_copy(void *to, const void *from, size_t size)
{
    memcpy(to, from, size);
}

void side_note_left_good(void)
{
}
void side_add_left_good(uint64_t count)
{
    (void)count;
}
/* How often memory was used again. */
static _Atomic unsigned reused;
void side_note_reuse(uint64_t bytes)
{
    (void)bytes;
    atomic_fetch_add(&reused, 1);
}
void side_note_finding_lost(void)
{
}
void side_note_skipped(uint64_t what)
{
    (void)what;
}
call_site call_site_from(uintptr_t frame, uintptr_t caller) { return frame == 0 ? caller : frame; }
call_site call_site_of(uintptr_t caller) { return caller; }
bool recorder_is_own_process(void) { return true; }
int self_process(void) { return getpid(); }
/* Not known: nobody says of a thread that it will give its shard back. */
_Thread_local struct own_stack own_stack;

static void expect(bool holds, const char *what)
{
    if (holds)
        return;
    fprintf(stderr, "not as it should be: %s\n", what);
    exit(1);
}

void shadow_map(void)
{
    uint64_t start = (uint64_t)ARENA_NUMBER << ARENA_SHIFT, bytes = BLOCK_NUMBERS * sizeof(struct block);
    bytes += UNITS * (sizeof(struct unit) + UNIT) + SPARE_BYTES;
    void *shadow = (void *)(uintptr_t)shadow_of(start);
    int flags = MAP_PRIVATE | MAP_ANONYMOUS | MAP_NORESERVE | MAP_FIXED_NOREPLACE;
    expect(system_mmap(shadow, bytes / GRANULE, PROT_READ | PROT_WRITE, flags, -1, 0) == (long)shadow, "the shadow");
}
void shadow_clear(uint64_t address, uint64_t size) { memset((void *)shadow_of(address), 0, size / GRANULE); }
void shadow_poison(uint64_t address, uint64_t size, unsigned char code)
{
    memset((void *)shadow_of(address), code, size / GRANULE);
}
uint64_t shadow_first_bad(uint64_t address, uint64_t size)
{
    uint64_t at = address;
    while (at < address + size && *shadow_of(at) == 0)
        at += GRANULE;
    return at < address + size ? at : address + size;
}

/* Of the first region nothing is shown, as if there were no file. */
static _Atomic bool shown[(uint64_t)UNITS * UNIT / SHADOW_OF_FILE];
static _Atomic bool *shown_of(uint64_t address)
{
    return &shown[(address - (uint64_t)(uintptr_t)arena.bytes) / SHADOW_OF_FILE];
}
bool unused_show(uint64_t address)
{
    shadow_poison(address, SHADOW_OF_FILE, SHADE_USER);
    return atomic_exchange(shown_of(address), true), true;
}
bool unused_show_again(uint64_t address, uint64_t size)
{
    for (uint64_t at = address; at < address + size; at = (at / SHADOW_OF_FILE + 1) * SHADOW_OF_FILE)
        if (!atomic_load(shown_of(at)))
            return false;
    return shadow_poison(address, size, SHADE_USER), true;
}
void unused_hide(uint64_t address)
{
    shadow_clear(address, SHADOW_OF_FILE);
    atomic_store(shown_of(address), false);
}
bool shadow_is_of_file(uint64_t address) { return atomic_load(shown_of(address)); }

/* A block begins with this, and its first and last bytes are its mark. */
struct mark {
    size_t size;
    unsigned char byte;
};

enum { FREED = 1 << 12 };
struct thread {
    pthread_t thread;
    uintptr_t number;
    uint64_t draws;
    struct mark *blocks[BLOCKS];
    uintptr_t freed[FREED]; /* the last that it has freed */
    size_t freed_count;
};

/* What a round is like. */
static struct {
    bool is_new;  /* no address was handed out before */
    bool has_end; /* in its middle all is put in order */
} round_now;

/* Blocks that a thread has laid down, and another one may take. */
static _Atomic(struct mark *) laid_down[SHARED];

static uint64_t draw(struct thread *me, uint64_t below)
{
    me->draws ^= me->draws << 13;
    me->draws ^= me->draws >> 7;
    return (me->draws ^= me->draws << 17) % below;
}

/* Of each address at which a block may begin: whether it was handed out. */
static _Atomic bool *handed_out;

static void expect_new(const void *block)
{
    uint64_t distance = (uint64_t)((const unsigned char *)block - arena.bytes);
    bool before = atomic_exchange_explicit(&handed_out[distance / ALIGNMENT], true, memory_order_relaxed);
    expect(!before || !round_now.is_new, "an address that was not handed out before");
}

static struct mark *take_block(size_t size, size_t alignment, bool zeroed)
{
    uint64_t *block = heap_allocate(size, alignment, zeroed, 1);
    if (block != NULL)
        expect_new(block);
    for (size_t i = 0; zeroed && block != NULL && i < size / sizeof *block; i++)
        expect(block[i] == 0, "that it is zeros");
    return (struct mark *)block;
}

static void give_back(struct thread *me, struct mark *block)
{
    me->freed[me->freed_count++ % FREED] = (uintptr_t)block;
    heap_give_back(block, 1);
}

/* Of a block that was freed for good: another thread may be painting it so again. */
static __attribute__((no_sanitize("thread"))) bool is_bad(uintptr_t address)
{
    return *shadow_of(address) != 0;
}

static void expect_bad(const struct thread *me)
{
    for (size_t i = 0; i < FREED && i < me->freed_count && round_now.is_new; i++)
        expect(is_bad(me->freed[i]), "that a freed block stays bad");
}

static struct mark *mark_it(struct mark *block, size_t size, struct thread *me)
{
    expect(block != NULL, "the memory");
    *block = (struct mark){size, (unsigned char)me->number};
    ((unsigned char *)block)[size - 1] = block->byte;
    return block;
}

/* Looks a block up in each way, and looks at its bytes. */
static void look_at(const struct mark *block)
{
    struct nearest found;
    uintptr_t start = (uintptr_t)block, end = start + block->size;
    expect(((const unsigned char *)block)[block->size - 1] == block->byte, "a block's bytes");
    expect(arena_find_nearest(start, &found) && found.start == start && found.size == block->size, "the nearest block");
    expect(arena_find_nearest(end - 1, &found) && found.start == start && found.call_sites.freed == 0, "its last byte");
    expect(arena_find_nearest(end, &found), "the byte after it");
    expect(heap_end_around(start) == end && heap_end_around(end - 1) == end, "a block's end");
    expect(heap_live_size((void *)(uintptr_t)block) == block->size, "a block's size");
}

/* Anywhere in the arena: the notes there may be changing. */
static void look_anywhere(struct thread *me)
{
    struct nearest found;
    uintptr_t bytes = ((uintptr_t)ARENA_NUMBER << ARENA_SHIFT) + BLOCK_NUMBERS * sizeof(struct block)
                      + UNITS * sizeof(struct unit);
    uintptr_t somewhere = bytes + draw(me, 2048) * UNIT + draw(me, UNIT);
    arena_find_nearest(somewhere, &found);
    expect(heap_end_around(somewhere) >= somewhere, "an end");
}

static void count_one(const struct block *block, void *with)
{
    *(unsigned *)with += block->state == BLOCK_LIVE;
}

static void look_at_all(bool is_in_order)
{
    unsigned live = 0;
    heap_for_each(count_one, &live);
    expect(live <= THREADS * BLOCKS + SHARED, "the number of blocks");
    events = 0;
    atomic_store(&lean_is_on, !is_in_order);
    heap_snapshot(UINT64_MAX, EVENT_LIMIT);
    expect((events != 0) == is_in_order, "what is in a snapshot");
}

/* What a signal handler does whose thread is in the allocator: its memory is spare, and what it frees is given back
   later. And the heap is looked at, as for a segment. */
static void be_in_the_middle(struct thread *me, struct mark *block, uint64_t step)
{
    heap_lock();
    expect(heap_is_entered(), "that it is entered");
    void *spare = heap_allocate(100, ALIGNMENT, false, 1);
    expect(spare != NULL && heap_live_size(spare) == 100, "spare memory");
    heap_give_back(spare, 1);
    give_back(me, block);
    if (me->number == 0)
        look_at_all(heap_is_ordered() || (round_now.has_end && step > STEPS / 2));
    heap_unlock();
}

static void replace(struct thread *me, struct mark **mine, size_t size)
{
    uintptr_t before = (uintptr_t)*mine;
    *mine = mark_it(heap_move(*mine, size, 1, "realloc"), size, me);
    expect_new(*mine);
    me->freed[me->freed_count++ % FREED] = before;
}

/* Most blocks are small and short, so that the long ones lie far apart. */
static uint64_t most_for(uint64_t step)
{
    return step % 512 == 1 ? 8 * LARGEST : step % 64 == 0 ? LARGEST : step % 4 == 3 ? 6000 : 1500;
}

static void do_step(struct thread *me, uint64_t step)
{
    struct mark **mine = &me->blocks[draw(me, draw(me, 8) == 0 ? BLOCKS : SHORT_LIVED)];
    size_t size = sizeof(struct mark) + draw(me, most_for(step));
    if (step % 8 != 0) /* few sizes, so that units become full */
        size = (size + 511) / 512 * 512;
    look_anywhere(me);
    if (*mine == NULL) {
        *mine = mark_it(take_block(size, (size_t)ALIGNMENT << step % 4, step % 2), size, me);
        return;
    }
    look_at(*mine);
    if (step % 512 < 4)
        be_in_the_middle(me, *mine, step), *mine = NULL;
    else if (step % 4 == 0)
        replace(me, mine, size);
    else if (step % 4 == 1)
        *mine = atomic_exchange(&laid_down[draw(me, SHARED)], *mine);
    else
        give_back(me, *mine), *mine = NULL;
    if (step % 1024 == 0)
        heap_is_poisoned();
    if (step % 1024 == 512)
        heap_trim();
    if (step % 1024 == 1)
        expect(heap_count().live_count <= THREADS * BLOCKS + SHARED, "the number of blocks");
}

/* Half of what it has is freed after it has given its shard to others. Every other thread ends without that. */
static void *run(void *of)
{
    struct thread *me = of;
    for (uint64_t step = 0; step < STEPS; step++)
        do_step(me, step);
    expect_bad(me);
    for (unsigned i = 0; i < BLOCKS; i++) {
        if (i == BLOCKS / 2 && me->number % 2 == 0)
            heap_thread_ends();
        heap_give_back(me->blocks[i], 1), me->blocks[i] = NULL;
    }
    mark_it(me->blocks[0] = take_block(100, ALIGNMENT, true), 100, me);
    heap_give_back(me->blocks[0], 1);
    return NULL;
}

static void check_round(uint64_t bound)
{
    static struct thread threads[THREADS];
    heap_set_bound(bound);
    round_now.is_new = bound == UINT64_MAX && !heap_is_ordered() && atomic_load(&reused) == 0;
    for (unsigned i = 0; i < THREADS; i++) {
        threads[i] = (struct thread){.number = i, .draws = 12345 + i};
        expect(pthread_create(&threads[i].thread, NULL, run, &threads[i]) == 0, "a thread");
    }
    for (unsigned i = 0; i < THREADS; i++)
        pthread_join(threads[i].thread, NULL);
    for (unsigned i = 0; i < SHARED; i++)
        heap_give_back(atomic_exchange(&laid_down[i], NULL), 1);
    expect(heap_count().live_count == 0, "that all is freed");
    expect(bound != UINT64_MAX || !round_now.is_new || atomic_load(&reused) == 0, "that nothing is used again");
}

static void check_all(void)
{
    static const uint64_t bounds[] = {UINT64_MAX, HELD_BYTES, 0, UINT64_MAX, HELD_BYTES / 16};
    enum { COUNT = sizeof bounds / sizeof *bounds };
    size_t bytes = (size_t)UNITS * UNIT / ALIGNMENT * sizeof *handed_out;
    handed_out = mmap(NULL, bytes, PROT_READ | PROT_WRITE, MAP_PRIVATE | MAP_ANONYMOUS | MAP_NORESERVE, -1, 0);
    expect(handed_out != MAP_FAILED, "the notes on addresses");
    atomic_store(&lean_is_on, true);
    for (int i = 0; i < COUNT; i++) {
        round_now.has_end = i == COUNT - 2;
        if (i == 1) {
            heap_lock();
            heap_keep_call_sites();
            heap_unlock();
        }
        for (int round = 0; round < ROUNDS; round++)
            check_round(bounds[i]);
        expect(heap_is_ordered() == (i >= COUNT - 2), "when it is in order");
    }
}

/* From now on the system knows no membarrier. */
static void take_membarrier(void)
{
    struct sock_filter filter[] = {
        BPF_STMT(BPF_LD | BPF_W | BPF_ABS, offsetof(struct seccomp_data, nr)),
        BPF_JUMP(BPF_JMP | BPF_JEQ | BPF_K, SYS_membarrier, 0, 1),
        BPF_STMT(BPF_RET | BPF_K, SECCOMP_RET_ERRNO | ENOSYS),
        BPF_STMT(BPF_RET | BPF_K, SECCOMP_RET_ALLOW),
    };
    struct sock_fprog program = {sizeof filter / sizeof *filter, filter};
    expect(prctl(PR_SET_NO_NEW_PRIVS, 1, 0, 0, 0) == 0, "no new privileges");
    expect(prctl(PR_SET_SECCOMP, SECCOMP_MODE_FILTER, &program, 0, 0) == 0, "the filter");
}

int main(void)
{
    int status;
    pid_t child = fork();
    if (child == 0)
        take_membarrier();
    check_all();
    expect(atomic_load(&heap.has_barrier) == (child != 0), "the barrier");
    if (child != 0)
        expect(waitpid(child, &status, 0) == child && status == 0, "the child's end");
    return 0;
}
