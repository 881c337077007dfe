/* A slot of 16 MB for each thread that takes frames: its head and the flags of all frames, and a part of 1 MB for each
   of 11 classes of size. Slots of threads that have ended are a list without a lock. */
#define _GNU_SOURCE
#include "stacks/fake_stack.h"

#include <signal.h>
#include <stdatomic.h>
#include <string.h>
#include <sys/mman.h>

#include "base/memory.h"
#include "base/system.h"
#include "base/tables.h"
#include "shadow/shadow.h"
#include "stacks/own_stack.h"

/* Each fake stack has a slot in one range of addresses, and in it a part of equal size for itself and for each class.
   As with AddressSanitizer, a class has 1 MiB: 16,384 frames of 64 bytes, and 16 of 64 KiB. */
#define SLOTS_START FAKE_SLOTS_START
enum { SLOT_SHIFT = 24, SLOTS = 1 << FAKE_SLOTS_SHIFT, PART_SHIFT = 20 };
#define PART_BYTES ((size_t)1 << PART_SHIFT)
#define SLOT_BYTES ((1 + FAKE_CLASSES) * PART_BYTES)

/* The flags of all classes lie in the first part: each class has half the number of the one before. */
enum { FLAGS_AT = 1 << 16, MOST_FLAGS = 1 << (PART_SHIFT - FAKE_LEAST_SHIFT) };
/* At the end of a thread this many bytes of each class stay, for the next one. */
enum { KEPT_BYTES = 1 << 14 };

/* At the start of a slot. Its thread alone uses this, and handlers of signals in that thread. */
struct fake_stack {
    _Atomic uintptr_t swept_to; /* if a frame is taken above here, frames abandoned below it are given back first, */
    _Atomic uintptr_t low, top; /* on this stack */
    _Atomic uint32_t sweeps;    /* how often that was done since frames were left */
    _Atomic uint32_t next[FAKE_CLASSES]; /* where to look for a frame */
    _Atomic uint32_t used[FAKE_CLASSES]; /* no frame from this number on was ever taken */
};

/* Numbers of slots count from 1, and 0 is none. Free ones are a list: of its head the upper half counts its changes. */
static _Atomic uint32_t slots_made;
static _Atomic uint64_t free_slots;
static _Atomic uint32_t *const next_free = TABLE(_Atomic uint32_t, fake_free);
TABLE_HAS_ROOM(fake_free, (SLOTS + 1) * sizeof *next_free);

static _Atomic bool is_on;
static _Thread_local struct fake_stack *volatile own;
static _Thread_local volatile sig_atomic_t is_beginning, gets_none;
/* It runs contexts on parts of its own stack, so that a lower frame there may go on. */
static _Thread_local volatile sig_atomic_t has_inner_stacks;

static uint32_t count_of(unsigned class)
{
    return (uint32_t)MOST_FLAGS >> class;
}

static size_t size_of(unsigned class)
{
    return (size_t)1 << (FAKE_LEAST_SHIFT + class);
}

/* 1: the frame is taken. The compilers' code stores 0 there. */
static volatile unsigned char *flags_of(struct fake_stack *stack, unsigned class)
{
    return (volatile unsigned char *)stack + FLAGS_AT + 2 * MOST_FLAGS - (2 * MOST_FLAGS >> class);
}

/* Of eight frames, from a multiple of eight on. */
static uint64_t flags_at(const volatile unsigned char *flags)
{
    return *(const volatile uint64_t *)flags;
}

static uintptr_t frame_of(struct fake_stack *stack, unsigned class, uint32_t number)
{
    return (uintptr_t)stack + (1 + class) * PART_BYTES + number * size_of(class);
}

static struct fake_stack *stack_in(uint32_t number)
{
    return (struct fake_stack *)(SLOTS_START + ((uint64_t)(number - 1) << SLOT_SHIFT));
}

/* Gives all granules of a frame this shadow byte. */
static void paint(uintptr_t frame, unsigned class, unsigned char shade)
{
    enum { MANY = 64 };
    size_t words = size_of(class) / GRANULE / sizeof(uint64_t);
    volatile uint64_t *shades = (volatile uint64_t *)shadow_of(frame);
    if (words > MANY) {
        memset((void *)shadow_of(frame), shade, size_of(class) / GRANULE);
        return;
    }
    for (size_t i = 0; i < words; i++)
        shades[i] = UINT64_C(0x0101010101010101) * shade;
}

/* Slots. */

static uint32_t take_free_slot(void)
{
    uint64_t head = atomic_load(&free_slots);
    uint32_t number;
    do {
        number = (uint32_t)head;
        if (number == 0)
            return 0;
    } while (!atomic_compare_exchange_weak(&free_slots, &head,
                                           ((head >> 32) + 1) << 32 | atomic_load(&next_free[number])));
    return number;
}

static void give_slot(struct fake_stack *stack)
{
    uint32_t number = (uint32_t)(((uintptr_t)stack - SLOTS_START) >> SLOT_SHIFT) + 1;
    uint64_t head = atomic_load(&free_slots);
    do
        atomic_store(&next_free[number], (uint32_t)head);
    while (!atomic_compare_exchange_weak(&free_slots, &head, ((head >> 32) + 1) << 32 | number));
}

/* Maps a slot that no thread has had. Null: there is no room. */
static struct fake_stack *make_slot(void)
{
    int flags = MAP_PRIVATE | MAP_ANONYMOUS | MAP_NORESERVE | MAP_FIXED_NOREPLACE;
    if (atomic_load(&slots_made) >= SLOTS)
        return NULL;
    uint32_t number = atomic_fetch_add(&slots_made, 1) + 1;
    if (number > SLOTS)
        return NULL;
    struct fake_stack *stack = stack_in(number);
    long start = system_mmap(stack, SLOT_BYTES, PROT_READ | PROT_WRITE, flags, -1, 0);
    if (start != (long)stack) {
        if (start > 0)
            system_munmap((void *)start, SLOT_BYTES);
        return NULL;
    }
    system_madvise(stack, SLOT_BYTES, MADV_NOHUGEPAGE);
    atomic_store(&stack->swept_to, UINTPTR_MAX);
    return stack;
}

/* Of a thread whose end is not seen none would come back. A handler that comes in between gets no frame. */
static struct fake_stack *begin(void)
{
    if (is_beginning || gets_none || own_stack.top == 0 || !atomic_load(&is_on))
        return NULL;
    is_beginning = true;
    uint32_t number = take_free_slot();
    struct fake_stack *stack = number != 0 ? stack_in(number) : make_slot();
    gets_none = stack == NULL;
    own = stack;
    is_beginning = false;
    return stack;
}

void fake_stack_start(int answer)
{
    atomic_store(&is_on, true);
    __asan_option_detect_stack_use_after_return = answer;
}

void fake_stack_stop(void)
{
    atomic_store(&is_on, false);
    __asan_option_detect_stack_use_after_return = FRAMES_NEVER;
    own = NULL;
}

/* Frames that were left without their returns. */

/* Whose functions were there. */
struct left {
    uintptr_t low, top;
    uintptr_t handlers_low, handlers_top; /* the stack of handlers, if none of them runs; or zeros */
};

static bool was_left(const struct left *left, uintptr_t real)
{
    return (real >= left->low && real < left->top) || (real >= left->handlers_low && real < left->handlers_top);
}

static void find_handlers(struct left *left)
{
    stack_t seen;
    if (system_sigaltstack(NULL, &seen) != 0 || (seen.ss_flags & (SS_ONSTACK | SS_DISABLE)) != 0)
        return;
    left->handlers_low = (uintptr_t)seen.ss_sp;
    left->handlers_top = left->handlers_low + seen.ss_size;
}

/* Gives a frame back if its function was left, as a return would. */
static void give_if_left(struct fake_stack *stack, const struct left *left, unsigned class, uint32_t number)
{
    uintptr_t frame = frame_of(stack, class, number);
    volatile unsigned char *flag = flags_of(stack, class) + number;
    if (*flag == 0 || !was_left(left, ((const volatile uintptr_t *)frame)[WORD_REAL]))
        return;
    paint(frame, class, SHADE_RETURNED);
    *flag = 0;
}

static void give_left(struct fake_stack *stack, const struct left *left)
{
    for (unsigned class = 0; class < FAKE_CLASSES; class++) {
        const volatile unsigned char *flags = flags_of(stack, class);
        uint32_t used = atomic_load_explicit(&stack->used[class], memory_order_relaxed);
        for (uint32_t first = 0; first < used; first += sizeof(uint64_t))
            for (uint32_t i = 0; flags_at(flags + first) != 0 && i < sizeof(uint64_t); i++)
                give_if_left(stack, left, class, first + i);
    }
}

/* Goes over all flags, which are 32 KiB at most: about as long as a throw takes. The abandoned frames may reach further
   up than the first frame that is taken after it, so there is another sweep for one that lies higher; the fifth and
   later ones only if it lies far higher, so that they are few. */
static __attribute__((noinline)) void sweep(struct fake_stack *stack, uintptr_t real)
{
    enum { EXACT = 4, LEAST_STEP = 8, MOST_STEP = 30 };
    struct left left = {.low = atomic_load_explicit(&stack->low, memory_order_relaxed), .top = real + 1};
    uintptr_t top = atomic_load_explicit(&stack->top, memory_order_relaxed);
    if (real < left.low || real >= top || (has_inner_stacks && top == own_stack.top))
        return;
    uint32_t times = atomic_load_explicit(&stack->sweeps, memory_order_relaxed);
    uint32_t step = LEAST_STEP + times - EXACT;
    uintptr_t beyond = times < EXACT ? 0 : (uintptr_t)1 << (step < MOST_STEP ? step : MOST_STEP);
    atomic_store_explicit(&stack->sweeps, times + 1, memory_order_relaxed);
    atomic_store_explicit(&stack->swept_to, real + beyond, memory_order_relaxed);
    if (top == own_stack.top)
        find_handlers(&left);
    give_left(stack, &left);
}

void fake_frames_left(uintptr_t low, uintptr_t top)
{
    struct fake_stack *stack = own;
    if (stack == NULL)
        return;
    atomic_store_explicit(&stack->swept_to, UINTPTR_MAX, memory_order_relaxed);
    atomic_store_explicit(&stack->low, low, memory_order_relaxed);
    atomic_store_explicit(&stack->top, top, memory_order_relaxed);
    atomic_store_explicit(&stack->sweeps, 0, memory_order_relaxed);
    atomic_store_explicit(&stack->swept_to, 0, memory_order_relaxed);
}

void fake_context_begins(uintptr_t low, uintptr_t top)
{
    struct left left = {.low = low, .top = top};
    has_inner_stacks = has_inner_stacks || (low >= own_stack.low && low < own_stack.top);
    if (own != NULL)
        give_left(own, &left);
}

/* Frames. A handler may come at any time, and what it runs may go on elsewhere, with the frame. */

/* The number of a frame that was free, or of none. It looks at no more than this many flags, or eight times the
   number. */
static inline uint32_t take_number(struct fake_stack *stack, unsigned class, uint32_t none)
{
    enum { LOOKS = 64 };
    volatile unsigned char *flags = flags_of(stack, class);
    uint32_t number = atomic_load_explicit(&stack->next[class], memory_order_relaxed), last = count_of(class) - 1;
    for (unsigned looks = 0; looks < LOOKS; looks++) {
        number &= last;
        if (flags[number] == 0 && processor_set_flag(&flags[number])) {
            atomic_store_explicit(&stack->next[class], number + 1, memory_order_relaxed);
            return number;
        }
        bool are_taken = number % sizeof(uint64_t) == 0 && flags_at(flags + number) == UINT64_C(0x0101010101010101);
        number += are_taken ? (uint32_t)sizeof(uint64_t) : 1;
    }
    atomic_store_explicit(&stack->next[class], number, memory_order_relaxed);
    return none;
}

static inline __attribute__((always_inline)) uintptr_t take(unsigned class, uintptr_t real)
{
    struct fake_stack *stack = own;
    if (UNLIKELY(stack == NULL) && (stack = begin()) == NULL)
        return 0;
    if (UNLIKELY(real > atomic_load_explicit(&stack->swept_to, memory_order_relaxed)))
        sweep(stack, real);
    uint32_t number = take_number(stack, class, UINT32_MAX);
    if (UNLIKELY(number == UINT32_MAX))
        return 0;
    if (UNLIKELY(number >= atomic_load_explicit(&stack->used[class], memory_order_relaxed)))
        atomic_store_explicit(&stack->used[class], number + 1, memory_order_relaxed);
    uintptr_t frame = frame_of(stack, class, number);
    volatile uintptr_t *words = (volatile uintptr_t *)frame;
    words[WORD_REAL] = real;
    words[size_of(class) / sizeof *words - 1] = (uintptr_t)(flags_of(stack, class) + number);
    paint(frame, class, 0);
    return frame;
}

/* The smaller ones, which are most, have code for themselves, without shifts and loops. */
uintptr_t fake_take(unsigned class, uintptr_t real)
{
    switch (class) {
    case 0:
        return take(0, real);
    case 1:
        return take(1, real);
    case 2:
        return take(2, real);
    default:
        return take(class, real);
    }
}

void fake_give(uintptr_t frame, unsigned class)
{
    const volatile uintptr_t *words = (const volatile uintptr_t *)frame;
    paint(frame, class, SHADE_RETURNED);
    *(volatile unsigned char *)words[size_of(class) / sizeof *words - 1] = 0;
}

/* The end of a thread. */

static bool has_frames_from(struct fake_stack *stack, unsigned class, uint32_t first, uint32_t end)
{
    for (; first < end; first += sizeof(uint64_t))
        if (flags_at(flags_of(stack, class) + first) != 0)
            return true;
    return false;
}

/* Frames of contexts that go on elsewhere stay. The shadow stays too: an access to a returned frame is found. */
static void give_memory(struct fake_stack *stack, unsigned class)
{
    uint32_t used = atomic_load_explicit(&stack->used[class], memory_order_relaxed);
    uint32_t kept = KEPT_BYTES / size_of(class) > sizeof(uint64_t) ? (uint32_t)(KEPT_BYTES / size_of(class)) : 0;
    if (used <= kept || has_frames_from(stack, class, kept, used))
        return;
    size_t size = ((used - kept) * size_of(class) + PAGE - 1) / PAGE * PAGE;
    system_madvise((void *)frame_of(stack, class, kept), size, MADV_DONTNEED);
    atomic_store_explicit(&stack->used[class], kept, memory_order_relaxed);
    atomic_store_explicit(&stack->next[class], 0, memory_order_relaxed);
}

void fake_thread_ends(void)
{
    struct fake_stack *stack = own;
    gets_none = true;
    own = NULL;
    if (stack == NULL)
        return;
    struct left left = {.low = own_stack.low, .top = own_stack.top};
    find_handlers(&left);
    give_left(stack, &left);
    for (unsigned class = 0; class < FAKE_CLASSES; class++)
        give_memory(stack, class);
    atomic_store_explicit(&stack->swept_to, UINTPTR_MAX, memory_order_relaxed);
    give_slot(stack);
}

/* Whose frame it is. */

static bool is_in_slots(uint64_t address)
{
    return address >= SLOTS_START && (address - SLOTS_START) >> SLOT_SHIFT < atomic_load(&slots_made);
}

/* The part of its slot, which is the class and 1; 0 and greater numbers have no frames. */
static unsigned part_of(uint64_t address)
{
    return (unsigned)(address >> PART_SHIFT) % (1u << (SLOT_SHIFT - PART_SHIFT));
}

uint64_t fake_start_of(uint64_t address)
{
    unsigned part = part_of(address);
    if (!is_in_slots(address) || part == 0 || part > FAKE_CLASSES)
        return 0;
    return address / size_of(part - 1) * size_of(part - 1);
}

void *fake_current(void)
{
    return own;
}

void *fake_real_of(void *stack, uintptr_t address, uintptr_t *start, uintptr_t *end)
{
    uintptr_t words[WORDS], frame = fake_start_of(address);
    if (stack == NULL || frame == 0 || frame >> SLOT_SHIFT != (uintptr_t)stack >> SLOT_SHIFT
        || !memory_read(frame, words, sizeof words) || words[WORD_MAGIC] != FRAME_MAGIC)
        return NULL;
    *start = frame + sizeof words;
    *end = frame + size_of(part_of(address) - 1);
    return (void *)words[WORD_REAL];
}

static void visit_frames(struct fake_stack *stack, unsigned class, void (*visit)(uintptr_t low, uintptr_t top))
{
    uint32_t used = atomic_load_explicit(&stack->used[class], memory_order_relaxed);
    for (uint32_t number = 0; number < used; number++) {
        uintptr_t frame = frame_of(stack, class, number);
        if (flags_of(stack, class)[number] != 0)
            visit(frame, frame + size_of(class));
    }
}

void fake_each_frame(void (*visit)(uintptr_t low, uintptr_t top))
{
    uint32_t made = atomic_load(&slots_made);
    for (uint32_t number = 1; number <= made && number <= SLOTS; number++) {
        uintptr_t first; /* nothing is there if the system had no memory for it */
        if (memory_read((uintptr_t)stack_in(number), &first, sizeof first))
            for (unsigned class = 0; class < FAKE_CLASSES; class++)
                visit_frames(stack_in(number), class, visit);
    }
}
