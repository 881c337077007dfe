/* A table of 256 places for threads that keep their walks, and whose each place is (`owners`). A place has walks by
   their hash, and behind one another the pairs of words that they have read. */
#include "stacks/walks.h"

#include <string.h>

#include "base/tables.h"
#include "stacks/own_stack.h"

_Thread_local struct own_walks own_walks;
_Atomic uint64_t rules_generation = UINT64_C(1) << GENERATION_SHIFT;

/* More threads at a time know none. Unused entries take no memory. */
enum { PLACES = 256, AFTER_WALKS = 64 };
static struct walks *const places = TABLE(struct walks, walks);
TABLE_HAS_ROOM(walks, PLACES * sizeof *places);
/* The address of a thread's own_walks; or 0. */
static _Atomic uintptr_t owners[PLACES];

/* The address of who is called is there for any walk, and tells nothing. */
enum { TELLS_NOTHING = 1 };

void walks_empty(struct walks *walks)
{
    static const struct telling nothing = {TELLS_NOTHING, TELLS_NOTHING};
    walks->used = sizeof(struct known_walk) / PAIR_BYTES;
    memset(walks->first, 0, sizeof walks->first);
    for (size_t i = 0; i < sizeof walks->telling / sizeof *walks->telling; i++)
        walks->telling[i] = nothing;
}

/* Up to where the stack can be read. */
static void reach(struct walks *walks)
{
    uintptr_t end = own_stack.all != 0 && own_stack.readable < own_stack.top ? own_stack.readable : own_stack.top;
    walks->low = own_stack.low;
    walks->size = end > walks->low ? end - walks->low : 0;
}

void walks_forget(struct walks *walks, uint64_t generation)
{
    walks_empty(walks);
    reach(walks);
    walks->generation = generation;
    memset(walks->pointers, 0, sizeof walks->pointers);
}

static uintptr_t owner_of(size_t place)
{
    return atomic_load_explicit(&owners[place], memory_order_relaxed);
}

static bool is_own(size_t place)
{
    return owner_of(place) == (uintptr_t)&own_walks;
}

/* A place that is nobody's, for this thread; null: there is none. */
static struct walks *take(void)
{
    for (size_t i = 0; i < PLACES; i++) {
        uintptr_t nobody = 0;
        if (owner_of(i) == 0 && atomic_compare_exchange_strong(&owners[i], &nobody, (uintptr_t)&own_walks))
            return &places[i];
    }
    return NULL;
}

void walks_note_rights(uintptr_t start, size_t size, bool can_be_read)
{
    if (stack_note_rights(start, size, can_be_read))
        walks_end_generation(); /* words of known walks may lie there */
}

/* No handler comes here in between, since `walker` is set. But one may fork, or leave by a jump, before the place that
   was taken is noted here: by its owner no child gives it to another thread, and the end of this thread gives it back.
   */
struct walks *walks_take(void)
{
    struct walks *walks = atomic_load_explicit(&own_walks.walks, memory_order_relaxed);
    uint32_t count = atomic_load_explicit(&own_walks.count, memory_order_relaxed);
    if (LIKELY(walks != NULL)) {
        if (UNLIKELY(walks->low != own_stack.low))
            reach(walks); /* the stack has grown */
        return walks;
    }
    if (count == UINT32_MAX || own_stack.top == 0)
        return NULL;
    atomic_store_explicit(&own_walks.count, count + 1, memory_order_relaxed);
    if (count != AFTER_WALKS || (walks = take()) == NULL)
        return NULL;
    walks_forget(walks, atomic_load_explicit(&rules_generation, memory_order_relaxed));
    atomic_signal_fence(memory_order_seq_cst);
    atomic_store_explicit(&own_walks.walks, walks, memory_order_relaxed);
    return walks;
}

void walks_give(void)
{
    bool had_some = atomic_load_explicit(&own_walks.count, memory_order_relaxed) > AFTER_WALKS;
    atomic_store_explicit(&own_walks.count, UINT32_MAX, memory_order_relaxed);
    atomic_store_explicit(&own_walks.walks, NULL, memory_order_relaxed);
    atomic_signal_fence(memory_order_seq_cst);
    for (size_t i = 0; had_some && i < PLACES; i++)
        if (is_own(i))
            atomic_store(&owners[i], 0);
}

void walks_are_alone(void)
{
    for (size_t i = 0; i < PLACES; i++)
        if (owner_of(i) != 0 && !is_own(i))
            atomic_store_explicit(&owners[i], 0, memory_order_relaxed);
}

/* Where the first word lies that a walk would find changed, or 0. */
static uintptr_t changed_word(const struct known_walk *walk)
{
    const struct pair *at = (const struct pair *)(walk + 1), *end;
    for (uint32_t runs = walk->runs; runs > 0; runs--) {
        const struct run *run = (const struct run *)at++;
        uintptr_t frame = run->frame;
        for (end = at + run->frames; at < end; frame = at->first, at++) {
            if (word_above(frame, 0) != at->first)
                return frame;
            if (word_above(frame, 1) != at->second)
                return frame + sizeof frame;
        }
        for (end = at + run->words; at < end; at++)
            if (word_above(at->first, 0) != at->second)
                return at->first;
    }
    return 0;
}

/* In words; or what tells nothing, if it is too far. */
static uint16_t distance_of(const struct walks *walks, uintptr_t start, uintptr_t address)
{
    uintptr_t distance = (address - start) / sizeof address;
    bool is_near = address > start && distance <= UINT16_MAX && address - walks->low < walks->size;
    return is_near ? (uint16_t)distance : TELLS_NOTHING;
}

void keep_place(const struct keeping *keeping, uintptr_t second, uint64_t place)
{
    struct walks *walks = keeping->walks;
    struct known_walk *walk = kept_walk(keeping);
    struct telling *telling = &walks->telling[call_hash(walk->start, walk->caller)];
    telling->second = distance_of(walks, walk->start, second);
    if (!can_tell(walks, walk->start, *telling))
        telling->other = TELLS_NOTHING;
    uint16_t *first = &walks->first[walk_hash(walk->start, walk->caller, *telling)];
    const struct known_walk *like = walk_at(walks, *first);
    if (telling->other == TELLS_NOTHING && like->runs != 0 && like->start == walk->start
        && like->caller == walk->caller) {
        telling->other = distance_of(walks, walk->start, changed_word(like));
        first = &walks->first[walk_hash(walk->start, walk->caller, *telling)];
    }
    walk->place = place;
    walk->next = *first;
    *first = (uint16_t)walks->used;
    walks->used = (uint32_t)(keeping->at - walks->pairs);
}
