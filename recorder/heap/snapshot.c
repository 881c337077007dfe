/* What a stream begins with, if there was something before it. So the checker holds the same blocks as the heap, and
   finds the same wrong from here on. `struct snapshot` counts the events, or records them.

   Called: heap_snapshot (heap.h) by process/process.c when recording begins, and by stream/switching.c (`above`)
   when a segment does, which has the stream's lock too: in the thread that has the allocator's lock, all (blocks.h),
   with signals blocked. Static functions run there. */
#define _GNU_SOURCE
#include "heap/blocks.h"
#include "heap/heap.h"
#include "heap/quarantine.h"
#include "shadow/shadow.h"
#include "stream/record.h"

struct snapshot {
    bool is_counted;    /* nothing is recorded */
    uint64_t events;    /* how many there were */
    uintptr_t from, to; /* memory outside live blocks that has no poison yet */
};

static void snapshot_poison(struct snapshot *snapshot, uintptr_t address, size_t size)
{
    snapshot->events++;
    if (!snapshot->is_counted)
        record_poison(KIND_USER, address, size);
}

static bool is_poison(unsigned char shade)
{
    return shade == SHADE_USER || shade == SHADE_CONTAINER || shade == SHADE_FIELD || shade == SHADE_COOKIE;
}

/* What the process has poisoned in a live block, by its shadow. Redzones of a stack that lies in it are none. */
static void snapshot_poison_of(struct snapshot *snapshot, uintptr_t address, size_t size)
{
    for (uintptr_t at = address, end = address + size; at < end;) {
        uintptr_t bad = shadow_first_bad(at, end - at);
        uintptr_t granule = bad / GRANULE * GRANULE, next = bad % GRANULE != 0 ? granule + GRANULE : granule;
        uintptr_t good = next;
        while (good < end && is_poison(*shadow_of(good)))
            good += GRANULE;
        if (bad < end && good > next)
            snapshot_poison(snapshot, bad, (good < end ? good : end) - bad);
        at = good > bad ? good : granule + GRANULE;
    }
}

static void snapshot_live(const struct block *block, void *with)
{
    struct snapshot *snapshot = with;
    if (block->state != BLOCK_LIVE)
        return;
    snapshot->events++;
    if (!snapshot->is_counted)
        record_region(CODE_MALLOC, (uintptr_t)block_start(block), block->size);
}

static void snapshot_poison_if_live(const struct block *block, void *with)
{
    if (block->state == BLOCK_LIVE || block->state == BLOCK_UNRECORDED)
        snapshot_poison_of(with, (uintptr_t)block_start(block), size_of(block));
}

/* Poisons the memory that was found. */
static void snapshot_unused(struct snapshot *snapshot)
{
    for (uint64_t piece; snapshot->from < snapshot->to; snapshot->from += piece) {
        uint64_t rest = snapshot->to - snapshot->from;
        piece = rest < MAX_REGION_SIZE ? rest : MAX_REGION_SIZE;
        snapshot_poison(snapshot, snapshot->from, piece);
    }
}

static void add_unused(struct snapshot *snapshot, uintptr_t start, uintptr_t end)
{
    if (snapshot->to != start) {
        snapshot_unused(snapshot);
        snapshot->from = start;
    }
    snapshot->to = end;
}

/* A unit, or a run, except a live block in a run, which may have gigabytes. Returns how many units it has. */
static uint32_t snapshot_unit(struct snapshot *snapshot, uint32_t unit)
{
    bool is_run = is_used(unit) && arena.units[unit].kind == UNIT_RUN;
    uint32_t count = is_run ? arena.units[unit].count : 1;
    const struct block *block = block_at(unit, 0);
    uintptr_t start = (uintptr_t)unit_start(unit), end = start + (uintptr_t)count * UNIT;
    if (is_run && is_in_use(block)) {
        add_unused(snapshot, start, (uintptr_t)block_start(block));
        start = (uintptr_t)block_start(block) + size_of(block);
    }
    add_unused(snapshot, start, end);
    return count;
}

/* A block, live or held, is stated afterwards; released memory was redzone for the checker, and is bad as before.
   */
static void snapshot_memory(struct snapshot *snapshot)
{
    for (uint32_t unit = 0; unit < heap.poisoned;)
        unit += snapshot_unit(snapshot, unit);
    for (uint32_t unit = FIRST_BIG; unit < arena.big_top;)
        unit += snapshot_unit(snapshot, unit);
    snapshot_unused(snapshot);
}

/* The events except those of the quarantine. */
static uint64_t count_snapshot(void)
{
    struct snapshot counted = {.is_counted = true};
    heap_for_each(snapshot_live, &counted);
    if (!heap.is_unpainted)
        heap_for_each(snapshot_poison_if_live, &counted);
    snapshot_memory(&counted);
    return counted.events;
}

/* Releases the oldest blocks of the quarantine until a snapshot of the rest, with everything else, has this many
   events. A part of these is for what other threads poison after it was counted: that needs no lock. */
static void fit_quarantine(uint64_t most_held, uint64_t room)
{
    uint64_t most = most_held, few = room / 16;
    uint64_t held = heap.held_count < most ? heap.held_count : most;
    /* All blocks are counted only if they could be too many. */
    if ((uint64_t)arena.top * SLOTS + 2 * held + few > room) {
        uint64_t others = count_snapshot() + few, fit = others < room ? (room - others) / 2 : 0;
        most = fit < most ? fit : most;
    }
    while (heap.held_count > most)
        quarantine_release_oldest();
}

void heap_snapshot(uint64_t most_held, uint64_t room)
{
    struct snapshot snapshot = {0};
    if (is_lean())
        return;
    heap_order();
    fit_quarantine(most_held, room);
    snapshot_memory(&snapshot);
    heap_for_each(snapshot_live, &snapshot);
    for (const struct block *block = heap.oldest; block != NULL; block = block->next) {
        record_region(CODE_MALLOC, (uintptr_t)block_start(block), block->size);
        record_free((uintptr_t)block_start(block));
    }
    if (!heap.is_unpainted)
        heap_for_each(snapshot_poison_if_live, &snapshot);
}
