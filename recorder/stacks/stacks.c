/* An array of words, of which only the end moves, and a hash table of the stacks in it. Both are without a lock: who
   loses a place in the table looks again. */
#define _GNU_SOURCE
#include "stacks/stacks.h"

#include <stdatomic.h>
#include <stdbool.h>

#include "base/system.h"
#include "base/tables.h"
#include "common/format.h"
#include "stacks/thread_notes.h"

/* A stack is a word and then its frames, the innermost first. The word has its number in the lower bits, and over it
   for which list that was given, how many frames stand behind it, and how many there are. If there are more, the
   others are the outermost ones of a stack that has all of its own, and a last word says where in that they begin: a
   recursion makes many stacks that differ in few frames. */
enum { LIST_SHIFT = 28, OWN_SHIFT = 52, COUNT_SHIFT = 58 };
enum { OWN_MASK = (1 << (COUNT_SHIFT - OWN_SHIFT)) - 1 };
#define NUMBER_MASK ((UINT32_C(1) << LIST_SHIFT) - 1)
#define LIST_MASK ((UINT32_C(1) << (OWN_SHIFT - LIST_SHIFT)) - 1)
_Static_assert(SIDE_STACK_WORDS <= NUMBER_MASK, "a number is a place beside the stream");
_Static_assert((int)MAX_FRAMES <= (int)OWN_MASK, "there is room for both counts");
/* A stack shares frames only if at most one in this many is its own. */
enum { LEAST_PER_OWN = 4 };

/* What tells a stack from an address: no address has this bit. Below are the number of the thread, and an address or
   the number of the stack's first word. */
#define IS_STACK (UINT64_C(1) << 63)
enum { THREAD_SHIFT = ADDRESS_BITS };
#define ADDRESS_MASK ((UINT64_C(1) << THREAD_SHIFT) - 1)
_Static_assert(IS_STACK >> THREAD_BITS >> THREAD_SHIFT != 0, "there is room");

#define STACK_WORDS ((uint32_t)1 << 22)
#define STACKS ((uint64_t)1 << 18)
/* This many slots of the table stay free, so that a search ends soon. */
#define SPARE_STACKS (STACKS / 4)
#define WORD_MASK ((uint64_t)STACK_WORDS - 1)

static struct {
    _Atomic uint32_t taken; /* words; the first is of no stack */
    _Atomic uint32_t count; /* stacks */
} stacks = {.taken = 1};

/* Relaxed: the place in `known` is released once the words of a stack are there. Who has its number from elsewhere may
   see zeros, or a number that is just given. */
static _Atomic uint64_t *const words = TABLE(_Atomic uint64_t, stack_words);
TABLE_HAS_ROOM(stack_words, STACK_WORDS * sizeof *words);
/* The last stack of this thread that has all frames of its own, or 0. Relaxed: no other thread looks at it, and a
   signal handler finds one whose words are there. */
static _Thread_local _Atomic uint32_t last_whole;
/* The upper bits of a hash, and the number of the first word. */
static _Atomic uint64_t *const known = TABLE(_Atomic uint64_t, known_stacks);
TABLE_HAS_ROOM(known_stacks, STACKS * sizeof *known);

/* What differs in any bit of the hash comes into the upper ones, and from there into the lower ones. */
static uint64_t mixed(uint64_t hash)
{
    hash = (hash ^ hash >> 32) * STACK_FACTOR;
    return hash ^ hash >> 29;
}

static uint64_t word_at(uint64_t at)
{
    return atomic_load_explicit(&words[at], memory_order_relaxed);
}

static void put_word(uint64_t at, uint64_t word)
{
    atomic_store_explicit(&words[at], word, memory_order_relaxed);
}

static unsigned count_at(uint32_t first)
{
    return (unsigned)(word_at(first) >> COUNT_SHIFT);
}

/* How many stand behind the first word. */
static unsigned own_at(uint32_t first)
{
    return (unsigned)(word_at(first) >> OWN_SHIFT & OWN_MASK);
}

/* Where the others stand, if there are any. */
static uint64_t others_at(uint32_t first)
{
    return word_at(first + 1 + own_at(first));
}

static bool are_same(const uint64_t *frames, uint64_t others, unsigned count)
{
    for (unsigned i = 0; i < count; i++)
        if (frames[i] != word_at(others + i))
            return false;
    return true;
}

static bool is_stack_at(uint32_t first, const uint64_t *frames, unsigned count)
{
    unsigned own = own_at(first);
    if (count_at(first) != count || !are_same(frames, first + 1, own))
        return false;
    return own == count || are_same(frames + own, others_at(first), count - own);
}

/* How many frames a stack is to have of its own. The others are the outermost ones of this stack. */
static unsigned own_beside(uint32_t whole, const uint64_t *frames, unsigned count)
{
    unsigned own = count, there = whole != 0 ? count_at(whole) : 0;
    uint32_t end = whole + 1 + there;
    while (own > 1 && count - own < there && word_at(end - 1) == frames[own - 1])
        own--, end--;
    return own * LEAST_PER_OWN <= count ? own : count;
}

/* Keeps a new one. Answers its first word; 0: there is no room. */
static uint32_t keep(const uint64_t *frames, unsigned count)
{
    if (atomic_load(&stacks.taken) > STACK_WORDS - (MAX_FRAMES + 1)
        || atomic_load(&stacks.count) >= STACKS - SPARE_STACKS)
        return 0;
    uint32_t whole = atomic_load_explicit(&last_whole, memory_order_relaxed);
    unsigned own = own_beside(whole, frames, count);
    uint32_t first = atomic_fetch_add(&stacks.taken, 1 + own + (own < count));
    if (first > STACK_WORDS - (MAX_FRAMES + 1))
        return 0;
    atomic_fetch_add(&stacks.count, 1);
    put_word(first, (uint64_t)count << COUNT_SHIFT | (uint64_t)own << OWN_SHIFT);
    for (unsigned i = 0; i < own; i++)
        put_word(first + 1 + i, frames[i]);
    if (own < count) {
        put_word(first + 1 + own, whole + 1 + count_at(whole) - (count - own));
        return first;
    }
    atomic_signal_fence(memory_order_seq_cst);
    atomic_store_explicit(&last_whole, first, memory_order_relaxed);
    return first;
}

/* The first word of the stack that has these frames; 0: there is no room for it. */
static uint32_t find_or_keep(const struct stack *stack)
{
    const uint64_t *frames = stack->frames;
    unsigned count = stack->count;
    uint64_t hash = mixed(stack->hash), tag = hash & ~WORD_MASK;
    uint32_t kept = 0;
    for (uint64_t at = hash >> 24;; at++) {
        _Atomic uint64_t *entry = &known[at % STACKS];
        uint64_t seen = atomic_load_explicit(entry, memory_order_acquire);
        if (seen == 0) {
            if (kept == 0 && (kept = keep(frames, count)) == 0)
                return 0;
            if (atomic_compare_exchange_strong(entry, &seen, tag | kept))
                return kept;
        }
        if ((seen & ~WORD_MASK) == tag && is_stack_at((uint32_t)(seen & WORD_MASK), frames, count))
            return (uint32_t)(seen & WORD_MASK);
    }
}

call_site call_site_of(uintptr_t caller)
{
    return call_site_from(0, caller);
}

/* The place of a stack, of any thread; or only its innermost address, if there is no more of it, or no room. One that
   is none of the program's, to which it has jumped, is a stack too. */
static call_site call_site_of_stack(struct stack *stack, uintptr_t innermost)
{
    if (stack->count == 0)
        stack->frames[0] = innermost, stack->count = 1, stack->hash = stack_hash(0, innermost);
    uint32_t first = stack->count > 1 || innermost > ADDRESS_MASK ? find_or_keep(stack) : 0;
    return first != 0 ? IS_STACK | first : innermost & ADDRESS_MASK;
}

static inline call_site in_this_thread(call_site of)
{
    return of | (call_site)thread_number() << THREAD_SHIFT;
}

static __attribute__((noinline)) call_site walk_from(uintptr_t own, uintptr_t frame, uintptr_t caller)
{
    struct stack stack;
    unwind_from_call(own, frame, caller, &stack);
    call_site place = call_site_of_stack(&stack, caller);
    unwind_end(&stack, place);
    return place;
}

call_site call_site_from(uintptr_t frame, uintptr_t caller)
{
    uintptr_t own = (uintptr_t)__builtin_frame_address(0);
    frame = frame != 0 ? frame : own;
    call_site place = walks_recall(own, frame, caller);
    return in_this_thread(LIKELY(place != 0) ? place : walk_from(own, frame, caller));
}

call_site call_site_at(const struct registers *registers)
{
    struct stack stack;
    unwind_from_registers(registers, &stack);
    return in_this_thread(call_site_of_stack(&stack, registers->instruction + 1));
}

uintptr_t call_site_address(call_site of)
{
    return of & IS_STACK ? word_at((of & WORD_MASK) + 1) : of & ADDRESS_MASK;
}

unsigned call_site_thread(call_site of)
{
    return of >> THREAD_SHIFT & THREAD_UNKNOWN;
}

call_site call_site_of_any_thread(call_site of)
{
    return of & ~((call_site)THREAD_UNKNOWN << THREAD_SHIFT);
}

unsigned call_site_frames(call_site of, uint64_t frames[MAX_FRAMES])
{
    uint32_t first = of & WORD_MASK;
    if (!(of & IS_STACK))
        return 0;
    unsigned count = count_at(first), own = own_at(first);
    for (unsigned i = 0; i < own; i++)
        frames[i] = word_at(first + 1 + i);
    for (unsigned i = own; i < count; i++)
        frames[i] = word_at(others_at(first) + i - own);
    return count;
}

/* What stands over the number in a stack's word, if that is one of this list. */
static uint64_t upper_part(uint64_t word, uint32_t list)
{
    return word >> OWN_SHIFT << OWN_SHIFT | (uint64_t)(list & LIST_MASK) << LIST_SHIFT;
}

static uint32_t number_in(uint64_t word, uint32_t list)
{
    return word >> LIST_SHIFT == upper_part(word, list) >> LIST_SHIFT ? (uint32_t)word & NUMBER_MASK : 0;
}

uint32_t call_site_number(call_site of, uint32_t list)
{
    return of & IS_STACK ? number_in(word_at(of & WORD_MASK), list) : 0;
}

uint32_t call_site_give_number(call_site of, uint32_t list, uint32_t number)
{
    _Atomic uint64_t *word = &words[of & WORD_MASK];
    uint64_t seen = atomic_load(word);
    for (;;) {
        if (number_in(seen, list) != 0)
            return number_in(seen, list);
        if (atomic_compare_exchange_strong(word, &seen, upper_part(seen, list) | number))
            return number;
    }
}
