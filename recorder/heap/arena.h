/* Where the allocator's memory comes from: one range of addresses, which is cut into units of 64 KiB. The notes on
   units and blocks lie apart from them, so that a program that writes out of bounds does not meet them; and a pointer
   is looked up by arithmetic alone. What has no memory yet faults.

   Called: by the other files of heap/, in the thread that is in the allocator, also in a handler that was let in.
   Lock: for the functions of arena.c central, or all (blocks.h), but none for arena_give_memory, arena_drop and
   arena_clear, of memory that the thread has; arena_keep_call_sites by numbers.c with all. Who writes notes by
   unit_write, block_write and block_go has those, or is in its shard, for a unit or a block of that. The other
   functions with a body here need none. The last three (nearest.c) need none either, since they read notes by
   NOTE_NOW: by finding.c, differing.c, stream/near.c (`above`, stream/state.h), interface/, report/describing.c,
   report/wording.c and leaks/, in any thread, also in a handler. */
#ifndef ASANCOL_ARENA_H
#define ASANCOL_ARENA_H

#include <signal.h>
#include <stdatomic.h>
#include <stdbool.h>
#include <stddef.h>
#include <stdint.h>

#include "common/format.h"
#include "base/platform.h"
#include "libc/family.h"
#include "stacks/stacks.h"

enum { UNIT = 1 << 16, MIN_SLOT_SIZE = 2 * REDZONE, SLOTS = UNIT / MIN_SLOT_SIZE, ALIGNMENT = 16 };
/* What a process has on x86-64 is 2^42 bytes in units, but in a test of the allocator alone; */
#ifndef UNITS
enum { UNITS = ARENA_UNITS };
#endif
/* the second half for blocks of more than BIG_BYTES, except in a recording in order. */
enum { FIRST_BIG = UNITS / 2, BIG_BYTES = 1 << 19 };
/* A region of these has one mapping of the file that says it is unused (shadow/unused.h). */
enum { REGION_UNITS = 1 << 9, REGIONS = UNITS / REGION_UNITS };
/* And there are this many bytes for signal handlers. */
#define SPARE_BYTES ARENA_SPARE_BYTES
/* Free runs are listed by their number of units, the longer ones together. */
enum { BINS = 64 };

/* The notes on units and blocks are read without the lock too, by NOTE_NOW (nearest.c). So whoever has the lock writes
   notes that are read there by SET_NOTE, and may read it as it is. Relaxed: whoever reads without the lock believes
   nothing of it. */
#define SET_NOTE(note, value) __atomic_store_n(&(note), value, __ATOMIC_RELAXED)
#define NOTE_NOW(note) __atomic_load_n(&(note), __ATOMIC_RELAXED)

enum { STATE_BITS = 2, FAMILY_BITS = 2, OFFSET_BITS = 27 };
/* An offset has room for alignments up to this. A block of a greater one begins with the second unit of its run. */
#define NEAR_ALIGNMENT ((size_t)1 << 30)
_Static_assert(NEAR_ALIGNMENT / ALIGNMENT <= (1 << OFFSET_BITS) / 2, "with what comes before the block");

struct block {
    union {
        uint32_t size;            /* as it was asked for */
        uint32_t large_alignment; /* of one that is not recorded, as below */
    };
    union {
        struct {
            uint32_t state : STATE_BITS;
            uint32_t family : FAMILY_BITS; /* enum family */
            uint32_t is_ignored : 1;       /* the process has said that it is no leak */
            uint32_t offset : OFFSET_BITS; /* of the block in its slot or run, in multiples of ALIGNMENT */
        };
        uint32_t all_bits;
    };
    union {
        struct block *next; /* in its list of free slots, or in the quarantine */
        uint64_t alignment; /* of one that is live: what its `new` was given; 0: it was none with an alignment */
        uint64_t large_size; /* of one that is not recorded */
        uint64_t settled;    /* of one that is held, and in no order: whether its free is over (BLOCK_SETTLED) */
    };
};

enum block_state { BLOCK_FREE, BLOCK_LIVE, BLOCK_HELD, BLOCK_UNRECORDED };
#define BLOCK_SETTLED UINT64_MAX

enum unit_kind { UNIT_NEW, UNIT_SLAB, UNIT_RUN, UNIT_RUN_BODY, UNIT_FREE, UNIT_FREE_END };

/* The use of a slab or a run whose addresses are handed out once (shards.c). */
enum unit_form {
    FORM_NONE,
    FORM_OPEN,     /* a shard takes slots from it */
    FORM_CLOSED,   /* all slots were handed out */
    FORM_OLD,      /* and it is looked at as they are freed */
    FORM_LISTED,   /* and half of them were freed, so that it may be used again */
    FORM_RETIRED,  /* all that it had is freed for good, */
    FORM_BACK,     /* and its memory went back: it keeps notes alone, */
    FORM_FORGOTTEN /* and not even these, or hardly any */
};

struct unit {
    _Alignas(8) uint8_t kind;
    uint8_t stale;  /* the period since which it has old bytes; 0: it got new memory, of zeros */
    uint16_t lead;  /* of a slab: how many bytes come before its first slot */
    uint32_t count; /* of a run or a free run: its units; in its body or at its end: how far back it begins; of a slab:
                       what counts its slots (slots_in) */
    union {
        struct {
            uint32_t previous, next; /* free runs of a bin; 0 is none, and unit 0 is never used */
        };
        struct {
            uint32_t slot_size, used; /* of a slab; and how many were ever used */
        };
    };
    /* Of a slab of a shard. */
    uint32_t left;                       /* its slots that are not freed, and one more while it is open; atomic */
    uint32_t listed_before, listed_next; /* among those that may be used again; 0 is none */
    uint32_t dead;  /* how many of its pages are counted as dead (retiring.c) */
    uint16_t given; /* a bit for each page that was given back */
    uint8_t form;   /* enum unit_form */
    bool is_listed;
};

extern struct arena {
    /* Null until the first allocation. It is released, and without the lock it is acquired; so is `call_sites`. */
    unsigned char *bytes;
    struct unit *units;
    struct block *blocks; /* by block_number */
    unsigned char *spare; /* memory for signal handlers */
    struct call_sites *call_sites; /* one for each of `blocks`; or null: they are not noted */
    uint32_t noted;       /* units that have notes, */
    uint32_t committed;   /* and memory */
    uint32_t top;         /* units used so far, with unit 0, which is never used: it is the first block's neighbour */
    uint32_t big_noted, big_top; /* the same from FIRST_BIG on, where each run gets its memory by itself */
    uint32_t bins[BINS + 1];
    /* Of giving back (arena.c). */
    uint32_t taken, most_taken; /* units, now and at most */
    uint32_t waiting;
    uint8_t period; /* 1 or 2, in turn */
    int64_t period_start_ms;
} arena;

/* Not 0: this thread is changing the notes on units, which are not whole just now. */
extern _Thread_local volatile sig_atomic_t arena_changing;

static inline void arena_begin_change(void)
{
    arena_changing++;
    atomic_signal_fence(memory_order_seq_cst);
}

static inline void arena_end_change(void)
{
    atomic_signal_fence(memory_order_seq_cst);
    arena_changing--;
}

static inline unsigned char *unit_start(uint32_t unit)
{
    return arena.bytes + (size_t)unit * UNIT;
}

/* What a distance is multiplied with to be divided by the size of a slot: a division takes as long as the rest of a
   free. */
static inline uint32_t slot_factor(uint32_t slot_size)
{
    return UINT32_MAX / slot_size + 1;
}

/* The number of whole slots in this many bytes of a slab, by its factor. It is exact, since these bytes times the
   size of a slot are fewer than 2^32. */
static inline uint32_t slots_in(uint32_t bytes, uint32_t factor)
{
    return (uint32_t)((uint64_t)bytes * factor >> 32);
}

/* Where the notes on a slot stand. Those on the first slot of all units come before the others, and a run has no other:
   so the notes on a thousand runs take some pages, and not a page each. The others of a unit begin with a page, in the
   place of the first, which stays empty. */
static inline size_t block_number(uint32_t unit, uint32_t slot)
{
    return slot == 0 ? unit : UNITS + (size_t)unit * SLOTS + slot;
}
#define BLOCK_NUMBERS (UNITS + (size_t)UNITS * SLOTS)

static inline struct block *block_at(uint32_t unit, uint32_t slot)
{
    return arena.blocks + block_number(unit, slot);
}

/* Whether there was an allocation; without the lock. */
static inline bool arena_is_found(void)
{
    return __atomic_load_n(&arena.bytes, __ATOMIC_ACQUIRE) != NULL;
}

/* The unit after this one that was used, or may have been; 0: there is none. */
static inline uint32_t unit_after(uint32_t unit)
{
    unit++;
    if (unit >= arena.top && unit < FIRST_BIG)
        unit = FIRST_BIG;
    return unit < FIRST_BIG || unit < arena.big_top ? unit : 0;
}

/* All but whether it is stale, and what shards do with it. */
static inline void unit_write(uint32_t number, struct unit value)
{
    struct unit *unit = &arena.units[number];
    SET_NOTE(unit->kind, value.kind);
    SET_NOTE(unit->lead, value.lead);
    SET_NOTE(unit->count, value.count);
    SET_NOTE(unit->slot_size, value.slot_size);
    SET_NOTE(unit->used, value.used);
}

/* Whoever sees it sees the shadow as painted before. */
static inline void block_write(struct block *block, struct block now)
{
    __atomic_store_n(&block->all_bits, now.all_bits, __ATOMIC_RELEASE);
}

static inline void block_go(struct block *block, enum block_state state)
{
    struct block now = *block;
    now.state = state & ((1 << STATE_BITS) - 1);
    block_write(block, now);
}

/* Where the block begins of a slot or run that begins here. */
static inline uintptr_t block_address(const struct block *block, uintptr_t slot)
{
    return slot + (uintptr_t)block->offset * ALIGNMENT;
}

/* Before the first allocation. False: there is no memory. */
bool arena_find(void);
/* Makes room for the call sites of blocks, which takes memory as it is written to. */
void arena_keep_call_sites(void);
/* A handler has jumped out of the allocator: so memory to be mapped now may be mapped already, by what it has
   interrupted, and is nobody's. */
extern _Atomic bool arena_was_left;
/* Makes whole pages of the range usable, which are zeros. */
bool arena_give_memory(void *start, size_t bytes);
/* Units in a row, of any bytes, for a slab or for a large block; 0 if there is no memory. */
uint32_t arena_take_run(uint32_t count, bool is_slab);
/* Their memory waits to be given back to the system. */
void arena_give_run(uint32_t first, uint32_t count);
/* Units in a row that were never used, of zeros, at most this many; 0 if there is no memory. Nothing is noted of
   them. */
uint32_t arena_take_unused(uint32_t count);
/* The same for a run for a big block, whose second unit begins with a multiple of `alignment`: the units before stay as
   they are, and nobody uses them. */
uint32_t arena_take_big(uint32_t count, size_t alignment);
/* Gives the memory of units back to the system for good. False: the process has locked it. */
bool arena_drop(uint32_t first, uint32_t count);
/* The same for all units of a region, with what the system keeps of it. */
void arena_renew_region(uint32_t region);
/* Gives back the notes on the blocks of a slab, except on the first: a run has no others. Or all notes on the units of
   a region, which are new then. */
void arena_forget(uint32_t unit);
void arena_forget_region(uint32_t region);
/* Makes zeros of a block's bytes, which lie in a run. Whoever has the block needs no lock. */
void arena_clear(void *start, size_t size);
/* Gives back all that waits. False: nothing did. */
bool arena_give_back(void);
/* Looks at the clock, and gives back what has waited for a period. */
void arena_look_at_clock(void);

struct nearest; /* stream/near.h */
/* The block that is nearest to an address, and not far from it. Without a lock, at any time: the notes may change
   meanwhile, and then what it answers is of no use. False: no block is near, and none was there. */
bool arena_find_nearest(uintptr_t address, struct nearest *found);
/* The same for the block in whose slot or run an address is, live or held, and where it begins. */
bool arena_find_around(uintptr_t address, struct block *block, uintptr_t *start);
/* Whether an address is of a block that was not recorded, and is freed for good. */
bool arena_has_freed_unrecorded(uintptr_t address);

#endif
