/* Walks. A walk goes from frame to frame, and finds the calls that led here, a stack of calls (stacks.h). It goes by
   rules, which say of each instruction where the caller's frame is (unwinding.c). Here a thread keeps its walks, each
   with all words of the thread's own stack memory that it has read, in their order. If the next walk begins in the same
   frame, by the same call, and would read the same words, it would find the same calls. So these words are only
   compared: that takes two loads for each frame, and none waits for another.

   A thread that has walked some times takes a place for its walks, of which 128 KiB are for 8,192 frames, and gives it
   back at its end. A place is a part of a table of zeros, of which the system gives a page once that is written to:
   nothing is allocated. It is emptied if it is full, if rules may have changed, and if a walk was left by a jump: then
   it may be in any state.

   Called: walks_recall by stacks.c, and the rest by unwinding.c as it walks, in the thread that walks, also in a
   handler, with or without the allocator's lock; walks_give by process/threads.c, as the thread ends;
   walks_are_alone by process/process.c, in a forked child; walks_end_generation by unwinding.c; walks_note_rights by
   the checks of calls (interface/hooks.def), in the thread whose stack it may be. No lock here: a place is its thread's
   alone, and who uses it sets `own_walks.walker`. A handler that finds that set leaves the place alone. */
#ifndef ASANCOL_WALKS_H
#define ASANCOL_WALKS_H

#include <stdatomic.h>
#include <stdbool.h>
#include <stddef.h>
#include <stdint.h>

#include "base/platform.h"
#include "stacks/depth.h"

enum { WALKS_BITS = 11, CALLS_BITS = 9, POINTERS_BITS = 8, WALK_PAIRS = 8192, PAIR_BYTES = 16 };

/* A frame pointer, and the address after the call beside it, as they lie at another one; or where a word lies, and the
   word. */
struct pair {
    uintptr_t first, second;
};

/* A part of a walk. It goes by frame pointers from this frame on, each of which leads to the next one, and then reads
   other words. Behind it lie as many pairs. */
struct run {
    uintptr_t frame;
    uint32_t frames, words;
};

/* Behind it lie its runs. */
struct known_walk {
    uintptr_t start, caller;
    uint64_t place; /* what stands for its stack */
    uint32_t runs;
    uint32_t next; /* another one with the same hash, or 0 */
};

_Static_assert(sizeof(struct pair) == PAIR_BYTES && sizeof(struct run) == PAIR_BYTES, "a run begins with a pair");
_Static_assert(sizeof(struct known_walk) == 2 * PAIR_BYTES, "it has two");

/* How many words above the start lie those that tell the walks of one call from each other: the address after the next
   call, and where two of them differed first. */
struct telling {
    uint16_t second, other;
};

/* The place of one thread. */
struct walks {
    uint64_t generation;             /* of rules */
    uintptr_t low, size;             /* the thread's own stack: all walks begin there */
    uint32_t used;                   /* pairs; the first are of no walk */
    uint16_t first[1 << WALKS_BITS]; /* where a walk begins, by its hash; or 0 */
    struct telling telling[1 << CALLS_BITS];
    uintptr_t pointers[1 << POINTERS_BITS]; /* addresses after calls from which a frame pointer leads on */
    _Alignas(PAIR_BYTES) struct pair pairs[WALK_PAIRS];
};

/* Relaxed: no other thread looks at these, and a signal handler sees all that was stored before it came. */
extern _Thread_local struct own_walks {
    _Atomic uintptr_t walker;    /* the frame of the current user of the known walks, or 0 */
    struct walks *_Atomic walks; /* or null */
    _Atomic uint32_t count;      /* before it had any */
} own_walks;

/* The generation of the notes on modules' code; it counts in the upper bits. */
enum { GENERATION_SHIFT = ADDRESS_BITS + 1 };
extern _Atomic uint64_t rules_generation;

/* All walks and rules that are known are looked up again. */
static inline void walks_end_generation(void)
{
    atomic_fetch_add(&rules_generation, (uint64_t)1 << GENERATION_SHIFT);
}

/* Memory may be read from now on, or not, which is noted before. (calls/spaces.c) */
void walks_note_rights(uintptr_t start, size_t size, bool can_be_read);

/* The place of this thread, once it has walked often; or null. `walker` is set. */
struct walks *walks_take(void);
/* At the end of the thread: it has no place any more, and gets none. */
void walks_give(void);
/* In the child of a fork, which may be in a handler: the places of all other threads are free. */
void walks_are_alone(void);

/* Forgets the walks of a place. */
void walks_empty(struct walks *walks);
/* And also what else is known there; from now on it is by the rules of this generation. */
void walks_forget(struct walks *walks, uint64_t generation);

#define WALK_FACTOR UINT64_C(0x9e3779b97f4a7c15)

static inline uintptr_t word_above(uintptr_t start, size_t distance)
{
    return ((const uintptr_t *)start)[distance];
}

/* That which begins with this pair. */
static inline struct known_walk *walk_at(struct walks *walks, size_t pair)
{
    return (struct known_walk *)&walks->pairs[pair];
}

static inline size_t walk_hash(uintptr_t start, uintptr_t caller, struct telling telling)
{
    uintptr_t second = word_above(start, telling.second), other = word_above(start, telling.other);
    return ((start ^ caller << 18 ^ second << 36) + (other << 7)) * WALK_FACTOR >> (64 - WALKS_BITS);
}

/* It depends on who is called, too, since the recorder's own frames lie between. */
static inline size_t call_hash(uintptr_t start, uintptr_t caller)
{
    return (word_above(start, 1) + caller) * WALK_FACTOR >> (64 - CALLS_BITS);
}

static inline size_t pointer_hash(uintptr_t instruction)
{
    return (instruction ^ instruction >> POINTERS_BITS) % (1 << POINTERS_BITS);
}

/* Whether these words can be read. */
static inline bool can_tell(const struct walks *walks, uintptr_t start, struct telling telling)
{
    size_t farther = telling.second > telling.other ? telling.second : telling.other;
    return start - walks->low + farther * sizeof start < walks->size;
}

/* Whether this walk would read the same words now. No word is read here that it would not read. */
static inline bool is_same_walk(const struct known_walk *walk)
{
    const struct pair *at = (const struct pair *)(walk + 1), *end;
    for (uint32_t runs = walk->runs; runs > 0; runs--) {
        const struct run *run = (const struct run *)at++;
        uintptr_t frame = run->frame;
        for (end = at + run->frames; at < end; frame = at->first, at++)
            if (word_above(frame, 0) != at->first || word_above(frame, 1) != at->second)
                return false;
        for (end = at + run->words; at < end; at++)
            if (word_above(at->first, 0) != at->second)
                return false;
    }
    return true;
}

/* What stands for the stack to which a walk leads from here; 0: that is not known. */
static inline uint64_t find_walk(struct walks *walks, uintptr_t start, uintptr_t caller)
{
    enum { MOST_TRIED = 3 };
    struct telling telling = walks->telling[call_hash(start, caller)];
    if (UNLIKELY(!can_tell(walks, start, telling)))
        return 0;
    const struct known_walk *walk = walk_at(walks, walks->first[walk_hash(start, caller, telling)]);
    for (int i = 0; i < MOST_TRIED; i++) {
        if (walk->start == start && walk->caller == caller && is_same_walk(walk))
            return walk->place;
        walk = walk_at(walks, walk->next);
    }
    return 0;
}

/* The same, of this thread: `own` is the frame of the recorder's that asks, and stands in `walker` meanwhile. 0 also if
   a walk of this thread was interrupted, or was left by a jump. */
static inline uint64_t walks_recall(uintptr_t own, uintptr_t start, uintptr_t caller)
{
    struct walks *walks = atomic_load_explicit(&own_walks.walks, memory_order_relaxed);
    if (UNLIKELY(walks == NULL || atomic_load_explicit(&own_walks.walker, memory_order_relaxed) != 0))
        return 0;
    atomic_store_explicit(&own_walks.walker, own, memory_order_relaxed);
    atomic_signal_fence(memory_order_seq_cst);
    uint64_t found = 0;
    if (LIKELY(start - walks->low < walks->size
               && walks->generation == atomic_load_explicit(&rules_generation, memory_order_relaxed)))
        found = find_walk(walks, start, caller);
    atomic_signal_fence(memory_order_seq_cst);
    atomic_store_explicit(&own_walks.walker, 0, memory_order_relaxed);
    return found;
}

/* A walk that is to be kept. */
struct keeping {
    struct walks *walks; /* null: it is not */
    struct pair *at;
    struct run *run;
    uintptr_t frame;     /* to which the last frame pointer of the run leads */
    struct pair *unused; /* what has the frame pointer, if nothing was found by that yet; or null */
};

static inline struct known_walk *kept_walk(const struct keeping *keeping)
{
    return walk_at(keeping->walks, keeping->walks->used);
}

/* Begins to keep one. A frame takes at most four pairs: a run, and three words; and one of the recorder takes one. */
static inline void keep_walk(struct keeping *keeping, struct walks *walks, uintptr_t start, uintptr_t caller)
{
    enum { MOST_EACH = 4, MOST_PAIRS = (2 * MAX_FRAMES + 16) * MOST_EACH };
    *keeping = (struct keeping){.walks = walks};
    if (walks == NULL)
        return;
    if (walks->used > WALK_PAIRS - MOST_PAIRS)
        walks_empty(walks);
    struct known_walk *walk = kept_walk(keeping);
    *walk = (struct known_walk){.start = start, .caller = caller};
    keeping->at = (struct pair *)(walk + 1);
}

static inline bool needs_run(const struct keeping *keeping, uintptr_t frame)
{
    return keeping->run == NULL || keeping->run->words != 0 || keeping->frame != frame;
}

static inline void keep_run(struct keeping *keeping, uintptr_t frame)
{
    keeping->run = (struct run *)keeping->at++;
    *keeping->run = (struct run){frame, 0, 0};
    kept_walk(keeping)->runs++;
}

/* Where to put what lies at this frame pointer, and at the following ones. */
static inline struct pair *keep_next(const struct keeping *keeping, uintptr_t frame)
{
    return keeping->at + needs_run(keeping, frame);
}

/* It has read the words at this many frame pointers, from this one on, and they were put there. */
static inline void keep_frames(struct keeping *keeping, uintptr_t frame, uint32_t count)
{
    if (needs_run(keeping, frame))
        keep_run(keeping, frame);
    keeping->run->frames += count;
    keeping->at += count;
    keeping->unused = keeping->at - 1;
    keeping->frame = keeping->unused->first;
}

static inline void keep_word(struct keeping *keeping, uintptr_t address, uintptr_t word)
{
    if (keeping->walks == NULL)
        return;
    if (keeping->run == NULL)
        keep_run(keeping, 0);
    *keeping->at++ = (struct pair){address, word};
    keeping->run->words++;
}

/* The last word that was read is the frame pointer. */
static inline void keep_pointer(struct keeping *keeping)
{
    keeping->unused = keeping->walks != NULL ? keeping->at - 1 : NULL;
}

static inline void keep_use(struct keeping *keeping)
{
    keeping->unused = NULL;
}

/* The frame pointer is another one from here on: if the walk has not used it, it owes nothing to it. A library may have
   anything there. */
static inline void keep_loss(struct keeping *keeping)
{
    struct pair *unused = keeping->unused;
    struct run *run = keeping->run;
    if (keeping->walks == NULL || unused == NULL)
        return;
    struct pair *frames = (struct pair *)(run + 1);
    if (unused < frames + run->frames) {
        uintptr_t frame = unused == frames ? run->frame : unused[-1].first;
        *unused = (struct pair){frame + sizeof frame, unused->second};
        run->frames--, run->words++;
    } else {
        *unused = *--keeping->at;
        run->words--;
    }
    keeping->unused = NULL;
}

/* From now on this stands for the stack to which it has led. The address after the second call lies here. */
void keep_place(const struct keeping *keeping, uintptr_t second, uint64_t place);

#endif
