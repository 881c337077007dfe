/* What the parts of the allocator share: its state, and blocks by the notes on them (arena.h).

   **Two ways.** If all are recorded, the allocator is *in order*: one lock, free slots that are used again, and a
   quarantine that counts as the checker does (quarantine.c). Else the allocator *goes forward*: no address is handed
   out twice, and each thread has a shard of its own (shards.c). It begins so, and once it is in order it stays so
   (heap_order).

   **Who is in here** (entering.c) has its own shard alone, or all. All is: the gate's lock, and no thread in a shard.
   Who is in a shard never waits for the gate. Under the lock `central` is what all shards take from and give to; who
   has all may change that too, with or without it. The order: the gate, central, the stream's.

   Called: by the files of heap/, in the thread that is in its shard, for the blocks of that, or has all, also in a
   handler that was let in; heap_for_each, and what reads the notes on a block, also by leaks/, with all (heap_lock).
   Without a lock: heap_is_ordered and is_used anywhere in heap/, and heap_allocate, heap_give_back and heap_move, by
   replaced.c, in any thread, also in a handler; there the program calls heap_own_free and heap_own_realloc. `arena`
   and `heap` are written in heap/ alone. */
#ifndef ASANCOL_BLOCKS_H
#define ASANCOL_BLOCKS_H

#include <stdatomic.h>
#include <stdbool.h>
#include <stddef.h>
#include <stdint.h>

#include "heap/arena.h"
#include "base/lock.h"
#include "base/tables.h"

enum { MAX_SLOT_SIZE = 1 << 14, FINE_STEP = 16, FINE_END = 1024, CLASSES = 64 + 16 };

/* In order. */
struct class
{
    struct block *free;
    uint32_t slab; /* where new slots are taken from; 0 is none */
};

/* Where a shard takes slots of a size from. */
struct slab {
    uint32_t unit; /* 0: none */
    uint16_t next, end;
    bool is_again; /* its slots were handed out before: those that are free are */
};

/* A test of the allocator alone has fewer, so that it comes to them. */
#ifndef MOST_CLOSED
enum { MOST_CLOSED = 64, MOST_KEPT = 1 << 16 };
#endif
/* Units in a row that were never used. It changes at once, or only `next` does: a handler may jump out of the middle.
   */
struct unit_span {
    _Alignas(8) uint32_t next;
    uint32_t end;
};

enum { MOST_RETIRED = 8 };

/* What one thread allocates from. It alone is in there, or who has all. */
struct shard {
    _Alignas(128) _Atomic bool is_busy;
    /* How many mallocs and frees were left out here, and how many of these are counted beside the stream. The sum is
       right even if two threads add at once, since each adds what it finds more, or less. */
    _Atomic uint64_t left_good, left_good_noted;
    struct unit_span span;
    uint32_t retired_count;
    uint32_t retired[MOST_RETIRED];             /* units whose memory is not given back yet */
    uint32_t closed[MOST_CLOSED], closed_count; /* the last units that it has closed: a ring */
    struct slab slabs[CLASSES];
    /* If nothing is recorded: slots that were freed here, the last ones first. */
    struct block *free[CLASSES];
    uint32_t free_bytes[CLASSES];
    bool is_known;      /* it is in the list of all */
    int thread;         /* the system's number of a thread that will not give it back (shards.h); or 0 */
    struct shard *next; /* of all */
    struct shard *next_free;
};

/* Units that may be used again, the oldest first: under central. */
struct listed {
    uint32_t first, last;
};

extern struct heap {
    struct lock gate;
    struct lock central;
    bool is_locked;                 /* who has all took the lock: in a process of one thread it does not */
    _Atomic bool is_ordered;        /* changed with all */
    _Atomic bool is_closed;         /* no thread may go into its shard: it is in order, or somebody has all */
    _Atomic bool has_barrier;       /* changed with the gate */
    _Atomic(struct shard *) shards; /* added to with the gate, and never taken from */
    struct shard *free_shards;      /* that no thread has: with the gate */

    /* Going forward: under central. */
    struct unit_span runs;
    struct listed listed[CLASSES];
    _Atomic uint32_t dead; /* pages of freed blocks that can't be given back */
    /* Of the units in heap_kept. */
    uint32_t first_kept, kept_count;
    uint64_t kept_bytes;
    uint64_t retired_units;

    /* In order: with all. */
    struct class classes[CLASSES];
    struct block *oldest, *newest; /* the quarantine */
    uint64_t held_bytes, held_count;

    _Atomic bool is_unpainted; /* the shadow shows no blocks; changed without the lock too */
    uint32_t poisoned;         /* units that have become poison, below FIRST_BIG; they have had memory since */
    _Atomic size_t spare_used;
} heap;

/* Units whose notes are kept though all of their blocks are freed, the oldest first: a ring. Under central. */
static uint32_t *const heap_kept = TABLE(uint32_t, heap_kept);
TABLE_HAS_ROOM(heap_kept, MOST_KEPT * sizeof *heap_kept);
/* How many units of each region are retired, and forgotten. Written under central. */
static uint16_t *const heap_retired = TABLE(uint16_t, heap_retired),
                *const heap_forgotten = TABLE(uint16_t, heap_forgotten);
TABLE_HAS_ROOM(heap_retired, REGIONS * sizeof *heap_retired);
TABLE_HAS_ROOM(heap_forgotten, REGIONS * sizeof *heap_forgotten);

/* How many bytes of freed spans are held if it is in order, and else how many may be dead. Not zeros at first. */
extern _Atomic uint64_t heap_bound;

static inline bool heap_is_ordered(void)
{
    return atomic_load_explicit(&heap.is_ordered, memory_order_relaxed);
}

static inline uint32_t unit_of(const struct block *block)
{
    size_t number = (size_t)(block - arena.blocks);
    return (uint32_t)(number < UNITS ? number : (number - UNITS) / SLOTS);
}

static inline uint32_t slot_of(const struct block *block)
{
    size_t number = (size_t)(block - arena.blocks);
    return number < UNITS ? 0 : (uint32_t)((number - UNITS) % SLOTS);
}

/* Where the slot or the run of a block begins. */
static inline unsigned char *slot_start(const struct block *block)
{
    uint32_t number = unit_of(block);
    const struct unit *unit = &arena.units[number];
    bool is_slab = NOTE_NOW(unit->kind) == UNIT_SLAB;
    return unit_start(number)
           + (is_slab ? NOTE_NOW(unit->lead) + (size_t)slot_of(block) * NOTE_NOW(unit->slot_size) : 0);
}

static inline unsigned char *block_start(const struct block *block)
{
    return (unsigned char *)block_address(block, (uintptr_t)slot_start(block));
}

static inline size_t size_of(const struct block *block)
{
    return block->state == BLOCK_UNRECORDED ? block->large_size : block->size;
}

/* That its `new` was given, if it is in use; or 0. */
static inline size_t alignment_of(const struct block *block)
{
    return block->state == BLOCK_UNRECORDED ? block->large_alignment : block->alignment;
}

static inline bool is_used(uint32_t unit)
{
    return unit < NOTE_NOW(arena.top) || (unit >= FIRST_BIG && unit < NOTE_NOW(arena.big_top));
}

/* The block whose slot or run has this address, and where that begins; or null. Another shard may be changing the
   notes, and then the answer is unreliable, except for a block that the thread has, or had. */
static inline struct block *block_around(uintptr_t address, uintptr_t *start)
{
    if (!arena_is_found())
        return NULL;
    uintptr_t distance = address - (uintptr_t)arena.bytes;
    if (distance >= (size_t)UNITS * UNIT || !is_used((uint32_t)(distance / UNIT)))
        return NULL;
    uint32_t unit = (uint32_t)(distance / UNIT), into = (uint32_t)(distance % UNIT);
    const struct unit *at = &arena.units[unit];
    enum unit_kind kind = NOTE_NOW(at->kind);
    if (LIKELY(kind == UNIT_SLAB)) {
        uint32_t lead = NOTE_NOW(at->lead), used = NOTE_NOW(at->used);
        uint32_t slot = into < lead ? used : slots_in(into - lead, NOTE_NOW(at->count));
        *start = (uintptr_t)unit_start(unit) + lead + (size_t)slot * NOTE_NOW(at->slot_size);
        return slot < used ? block_at(unit, slot) : NULL;
    }
    uint32_t back = kind == UNIT_RUN_BODY ? NOTE_NOW(at->count) : 0;
    if ((kind != UNIT_RUN && kind != UNIT_RUN_BODY) || back >= unit)
        return NULL;
    *start = (uintptr_t)unit_start(unit - back);
    return block_at(unit - back, 0);
}

/* Whether the process has it. */
static inline bool is_in_use(const struct block *block)
{
    return block->state == BLOCK_LIVE || block->state == BLOCK_UNRECORDED;
}

/* The block that the process has, and of whose bytes this is one, or null. One of no bytes counts as one of a byte. */
static inline struct block *block_in_use(uintptr_t address)
{
    uintptr_t start;
    struct block *block = block_around(address, &start);
    if (block == NULL || !is_in_use(block))
        return NULL;
    uintptr_t distance = address - block_address(block, start);
    return distance == 0 || distance < size_of(block) ? block : NULL;
}

/* The block that starts here, live or held, or null. */
static inline struct block *block_from(const void *pointer)
{
    uintptr_t address = (uintptr_t)pointer, start;
    struct block *block = block_around(address, &start);
    return block != NULL && block->state != BLOCK_FREE && block_address(block, start) == address ? block : NULL;
}

/* Every slot and every run that is in use, or was. With all. */
void heap_for_each(void (*visit)(const struct block *block, void *with), void *with);

/* What the process calls is made of these, without the lock. Each is recorded with the call site in its caller. */

/* Null, and ENOMEM: there is no memory. `zeroed`: all bytes are zeros. */
void *heap_allocate(size_t size, size_t alignment, bool zeroed, uintptr_t caller);
/* Of null nothing. */
void heap_give_back(void *pointer, uintptr_t caller);
/* A malloc of the new, and then a free of the old, by this function. */
void *heap_move(void *old, size_t size, uintptr_t caller, const char *call);

/* The recorder's functions, whatever stands in their places. */
void heap_own_free(void *pointer);
void *heap_own_realloc(void *old, size_t size);
/* Where a call of one of these names leads, if it comes here. */
#ifdef IS_PRELOAD
extern const char exported_malloc[] NAMED("asancol_exported_malloc") __attribute__((visibility("hidden")));
extern const char exported_free[] NAMED("asancol_exported_free") __attribute__((visibility("hidden")));
extern const char exported_realloc[] NAMED("asancol_exported_realloc") __attribute__((visibility("hidden")));
#define EXPORTED(name) ((uintptr_t)exported_##name)
#else
#define EXPORTED(name) ((uintptr_t)&heap_own_##name)
#endif

#endif
