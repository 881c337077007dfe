/* A list of all shards, which only grows, and one of those that no thread has. A shard has for each class the unit from
   which it takes slots (struct slab). Under central run span_size, take_units and all that is for runs, except
   forward_take_run and forward_take_far, which take it; with the gate add and make_shards. */
#define _GNU_SOURCE
#include "heap/shards.h"

#include <errno.h>
#include <sys/mman.h>

#include "base/self.h"
#include "base/system.h"
#include "libc/library.h"
#include "heap/central.h"
#include "heap/placing.h"
#include "heap/poisoning.h"
#include "heap/retiring.h"
#include "heap/reusing.h"
#include "shadow/unused.h"

/* How many units a shard takes at a time, and runs: at first the number that there is, within these bounds. */
enum { LEAST_SPAN = 4, MOST_SPAN = 32 };
/* Of each region a mapping stays, and the system has a limit of these (65,530). So from 512 GB on retired memory is
   reused first. */
#ifndef MANY_UNITS
enum { MANY_UNITS = 1 << 23 };
#endif

/* Shards. */

/* Of the first thread, whose process may have no other; and of who has all. */
static struct shard first_shard, common_shard;

struct shard *shards_common(void)
{
    return &common_shard;
}

/* How many are made at a time: they fill whole pages. */
#ifndef SHARDS_AT_ONCE
enum { SHARDS_AT_ONCE = 16 };
#endif

static bool make_shards(void)
{
    size_t bytes = SHARDS_AT_ONCE * sizeof(struct shard) / PAGE * PAGE + PAGE;
    long made = system_mmap(NULL, bytes, PROT_READ | PROT_WRITE, MAP_PRIVATE | MAP_ANONYMOUS, -1, 0);
    struct shard *all = made > 0 ? (struct shard *)made : NULL;
    for (int i = 0; all != NULL && i < SHARDS_AT_ONCE; i++)
        shard_give(&all[i]);
    return all != NULL;
}

/* Who closes all looks at those in the list. */
static void add(struct shard *shard)
{
    shard->next = atomic_load(&heap.shards);
    atomic_store(&heap.shards, shard);
    shard->is_known = true;
}

/* Threads that do not give theirs back: how many were there when they were last looked at, and how many came since. */
static uint32_t were_there, came_since;

/* One that was ended inside is still busy. */
static bool has_ended(const struct shard *shard)
{
    return system_tgkill(self_process(), shard->thread, 0) == -ESRCH && !atomic_load(&shard->is_busy);
}

/* Takes the shards of those that have ended, once there are twice as many. A child that no fork has announced has
   none of these threads, and the one that it has may have another number. */
static void take_from_ended(void)
{
    if (came_since < SHARDS_AT_ONCE || came_since < were_there || !recorder_is_own_process())
        return;
    were_there = came_since = 0;
    for (struct shard *it = atomic_load(&heap.shards); it != NULL; it = it->next)
        if (it->thread != 0 && has_ended(it))
            shard_give(it);
        else if (it->thread != 0)
            were_there++;
}

struct shard *shard_take(int thread)
{
    if (atomic_load(&heap.shards) == NULL)
        shard_give(&first_shard);
    if (heap.free_shards == NULL)
        take_from_ended();
    if (heap.free_shards == NULL && !make_shards())
        return NULL;
    struct shard *shard = heap.free_shards;
    heap.free_shards = shard->next_free;
    shard->thread = thread;
    came_since += thread != 0;
    if (!shard->is_known)
        add(shard);
    return shard;
}

void shard_give(struct shard *shard)
{
    shard->thread = 0;
    shard->next_free = heap.free_shards;
    heap.free_shards = shard;
}

void shards_are_left(struct shard *own)
{
    heap.free_shards = NULL;
    if (own != NULL)
        own->thread = 0; /* it has another number now */
    for (struct shard *it = atomic_load(&heap.shards); it != NULL; it = it->next)
        if (it != own)
            shard_give(it);
}

/* Slots. */

static uint32_t span_size(void)
{
    if (arena.top < LEAST_SPAN)
        return LEAST_SPAN;
    return arena.top < MOST_SPAN ? arena.top : MOST_SPAN;
}

/* Units that were never used, which are poison from now on. */
static bool take_units(uint32_t count, struct unit_span *span)
{
    uint32_t first = arena_take_unused(count);
    struct unit_span taken = {first, first + count};
    if (first == 0)
        return false;
    poison_new(UINTPTR_MAX, UINTPTR_MAX);
    __atomic_store(span, &taken, __ATOMIC_RELAXED);
    return true;
}

/* The shard takes its slots of this class from this unit. */
static void open_unit(struct shard *shard, unsigned class, uint32_t unit, bool is_again)
{
    struct unit *at = &arena.units[unit];
    uint32_t slots = slots_of(at);
    SET_NOTE(at->form, FORM_OPEN);
    /* Last the unit: a handler may jump out of the middle. */
    shard->slabs[class] = (struct slab){0, 0, (uint16_t)slots, is_again};
    atomic_signal_fence(memory_order_seq_cst);
    shard->slabs[class].unit = unit;
}

/* A unit of this span; or one that was used before, if no block is to stay bad; or 0. */
static uint32_t take_unit(struct shard *shard)
{
    struct unit_span *span = &shard->span;
    if (heap.is_unpainted || span->next == span->end) {
        uint32_t unit = 0;
        central_take();
        if (heap.is_unpainted)
            unit = arena_take_run(1, true);
        else if (arena.top >= MANY_UNITS)
            unit = retiring_take_back(1, true);
        if (unit == 0 && !heap.is_unpainted)
            take_units(span_size(), span);
        if (unit == 0 && span->next == span->end)
            unit = reusing_take(1, true);
        central_give();
        if (unit != 0 || span->next == span->end)
            return unit;
    }
    return span->next++;
}

/* A unit becomes a slab. */
static bool open_new(struct shard *shard, unsigned class, uint32_t slot_size)
{
    uint32_t unit = take_unit(shard);
    if (unit == 0)
        return false;
    struct unit slab = slab_of(slot_size);
    unit_write(unit, slab);
    arena.units[unit].given = 0;
    __atomic_store_n(&arena.units[unit].left, slots_of(&slab) + 1, __ATOMIC_RELAXED);
    open_unit(shard, class, unit, false);
    return true;
}

/* Opens a listed unit, whose free slots are reused. False: there is none. */
static bool open_again(struct shard *shard, unsigned class)
{
    central_take();
    uint32_t unit = retiring_take_listed(class);
    central_give();
    if (unit != 0)
        open_unit(shard, class, unit, true);
    return unit != 0;
}

/* If there is no memory, dead blocks are reused too. */
static bool open_some(struct shard *shard, unsigned class, uint32_t slot_size)
{
    if (UNLIKELY(dead_are_too_many()) && open_again(shard, class))
        return true;
    return open_new(shard, class, slot_size) || open_again(shard, class);
}

/* The shard has no more slots there. Returns whether all blocks of the unit are freed. */
static bool count_down(uint32_t unit)
{
    uint32_t *left = &arena.units[unit].left;
    if (library_is_alone()) {
        __atomic_store_n(left, *left - 1, __ATOMIC_RELAXED);
        return *left == 0;
    }
    return __atomic_sub_fetch(left, 1, __ATOMIC_ACQ_REL) == 0;
}

static void count_up(uint32_t unit)
{
    __atomic_add_fetch(&arena.units[unit].left, 1, __ATOMIC_RELAXED);
}

/* A unit whose slots are all handed out is looked at once this many others of the shard are: most are retired by
   then. */
static void close_slab(struct shard *shard, struct slab *slab)
{
    uint32_t unit = slab->unit, *place = &shard->closed[shard->closed_count++ % MOST_CLOSED], before = *place;
    *place = unit;
    slab->unit = 0;
    SET_NOTE(arena.units[unit].form, FORM_CLOSED);
    if (count_down(unit))
        retire(shard, unit);
    if (before != 0)
        retiring_begin(before);
}

/* The next slot of a slab that was handed out before; or null: none is free. */
static struct block *next_free_slot(struct slab *slab)
{
    while (slab->next < slab->end) {
        struct block *block = block_at(slab->unit, slab->next++);
        if (is_settled(block)) {
            SET_NOTE(block->settled, 0); /* before it is painted as another block (differing.c) */
            atomic_signal_fence(memory_order_release);
            PROCESSOR_STAYS_BEHIND;
            count_up(slab->unit);
            return block;
        }
    }
    return NULL;
}

/* The next slot of a slab that has one that was never handed out. */
static struct slot next_slot(struct slab *slab)
{
    struct unit *unit = &arena.units[slab->unit];
    uint32_t number = slab->next++;
    uintptr_t start = (uintptr_t)unit_start(slab->unit) + unit->lead + (size_t)number * unit->slot_size;
    SET_NOTE(unit->used, slab->next);
    return (struct slot){block_at(slab->unit, number), start};
}

/* From a slab that is new, or that was handed out before. */
static struct slot take_from_other(struct shard *shard, unsigned class, uint32_t slot_size)
{
    struct slab *slab = &shard->slabs[class];
    struct slot slot = {NULL, 0};
    while (slot.block == NULL) {
        if (slab->unit != 0 && slab->next == slab->end)
            close_slab(shard, slab); /* a handler has jumped out before that was done */
        if (slab->unit == 0 && !open_some(shard, class, slot_size))
            return slot;
        if (!slab->is_again)
            slot = next_slot(slab);
        else if ((slot.block = next_free_slot(slab)) != NULL)
            slot.start = (uintptr_t)slot_start(slot.block);
        if (slab->next == slab->end)
            close_slab(shard, slab);
    }
    return slot;
}

struct slot shard_take_other(struct shard *shard, unsigned class, uint32_t slot_size)
{
    struct slab *slab = &shard->slabs[class];
    if (LIKELY(slab->unit != 0 && !slab->is_again && slab->next + 1 < slab->end))
        return next_slot(slab);
    return take_from_other(shard, class, slot_size);
}

/* Runs. */

static void write_run(uint32_t first, uint32_t count)
{
    for (uint32_t i = 0; i < count; i++)
        unit_write(first + i, (struct unit){.kind = i == 0 ? UNIT_RUN : UNIT_RUN_BODY, .count = i == 0 ? count : i});
}

/* The rest of the units that there were stays unused. */
static uint32_t take_small_run(uint32_t count)
{
    struct unit_span *runs = &heap.runs;
    if (runs->end - runs->next < count) {
        uint32_t rest = runs->next;
        runs->next = runs->end; /* first: a unit left twice would seem to be a region of freed units alone */
        atomic_signal_fence(memory_order_seq_cst);
        retiring_leave(rest, runs->end - rest);
        uint32_t step = span_size() > count ? span_size() : count;
        if (!take_units(step, runs))
            return 0;
    }
    runs->next += count;
    return runs->next - count;
}

/* A former slab is a run from now on. A run stays as long as it was. */
static uint32_t take_run_back(uint32_t count, bool longer)
{
    uint32_t first = retiring_take_back(count, longer);
    if (first != 0 && arena.units[first].kind == UNIT_SLAB)
        write_run(first, 1);
    return first;
}

/* Only used memory is left. */
static uint32_t take_any_run(uint32_t count)
{
    uint32_t first = take_run_back(count, false);
    if (first == 0 && (first = reusing_take(count, false)) != 0)
        write_run(first, count);
    return first;
}

/* Under central. */
static uint32_t take_run(uint32_t count)
{
    bool is_big = (size_t)count * UNIT > BIG_BYTES;
    if (heap.is_unpainted)
        return arena_take_run(count, false);
    bool are_many = (is_big ? arena.big_top - FIRST_BIG : arena.top) >= MANY_UNITS;
    uint32_t first = are_many ? take_run_back(count, true) : 0;
    if (first != 0)
        return first;
    first = is_big ? arena_take_big(count, UNIT) : take_small_run(count);
    if (first != 0)
        write_run(first, count);
    return first != 0 ? first : take_any_run(count);
}

struct block *forward_take_run(size_t count)
{
    if (count > UNITS - FIRST_BIG)
        return NULL;
    central_take();
    uint32_t first = take_run((uint32_t)count);
    central_give();
    return first == 0 ? NULL : block_at(first, 0);
}

struct block *forward_take_far(size_t count, size_t alignment)
{
    if (count > UNITS - FIRST_BIG)
        return NULL;
    central_take();
    uint32_t first = arena_take_big((uint32_t)count, alignment);
    if (first != 0)
        write_run(first, (uint32_t)count);
    central_give();
    return first == 0 ? NULL : block_at(first, 0);
}

void forward_bury(struct shard *shard, struct block *block, uint32_t unit)
{
    if (arena.units[unit].kind == UNIT_RUN) {
        retire_run(unit);
        return;
    }
    __atomic_store_n(&block->settled, BLOCK_SETTLED, __ATOMIC_RELEASE);
    if (count_down(unit))
        retire(shard, unit);
    else
        retiring_count(unit);
}

bool shards_give_back(void)
{
    bool has_any = false;
    for (struct shard *it = atomic_load(&heap.shards); it != NULL; it = it->next) {
        has_any |= it->retired_count != 0;
        retiring_flush(it);
    }
    has_any |= common_shard.retired_count != 0;
    retiring_flush(&common_shard);
    return has_any;
}

static void stop(struct shard *shard)
{
    for (unsigned class = 0; class < CLASSES; class ++) {
        shard->slabs[class].unit = 0;
        shard->free[class] = NULL;
        shard->free_bytes[class] = 0;
    }
}

void shards_stop(void)
{
    shards_give_back();
    for (struct shard *it = atomic_load(&heap.shards); it != NULL; it = it->next)
        stop(it);
    stop(&common_shard);
}
