/* What the allocator has as a whole: by the notes on all units, with all (blocks.h). No state of its own.

   Called: as heap.h says, and heap_for_each as blocks.h does. heap_count, heap_trim and heap_paint take all, unless
   the thread has it; heap_is_poisoned takes no lock; heap_for_each and heap_keep_call_sites run with all. In a
   handler too. */
#define _GNU_SOURCE
#include "heap/entering.h"
#include "heap/heap.h"
#include "heap/shards.h"
#include "shadow/shadow.h"
#include "shadow/unused.h"

static bool has_blocks(const struct unit *unit)
{
    return unit->form < FORM_RETIRED;
}

void heap_for_each(void (*visit)(const struct block *block, void *with), void *with)
{
    if (arena.bytes == NULL)
        return;
    for (uint32_t unit = 1; unit != 0; unit = unit_after(unit)) {
        const struct unit *at = &arena.units[unit];
        uint32_t count = at->kind == UNIT_SLAB ? at->used : at->kind == UNIT_RUN ? 1 : 0;
        for (uint32_t slot = 0; slot < count && has_blocks(at); slot++)
            visit(block_at(unit, slot), with);
    }
}

/* The shadow of these units says nothing of blocks any more. */
static void clear(uint32_t from, uint32_t to)
{
    for (uint32_t next; from < to; from = next) {
        uintptr_t start = (uintptr_t)unit_start(from);
        next = (from / REGION_UNITS + 1) * REGION_UNITS;
        if (shadow_is_of_file(start))
            unused_hide(start / SHADOW_OF_FILE * SHADOW_OF_FILE);
        else
            shadow_clear(start, (uint64_t)((next < to ? next : to) - from) * UNIT);
    }
}

void heap_paint(bool is_painted)
{
    bool is_entered = heap_enter_all();
    heap.is_unpainted = !is_painted; /* first: who compares the shadow sees that it is none */
    if (!is_painted && arena.bytes != NULL) {
        clear(0, arena.committed);
        clear(FIRST_BIG, arena.big_top);
    }
    if (is_entered)
        heap_leave();
}

void heap_is_poisoned(void)
{
    atomic_store_explicit(&heap.is_unpainted, false, memory_order_relaxed);
}

void heap_keep_call_sites(void)
{
    arena_keep_call_sites();
}

bool heap_trim(void)
{
    if (!heap_enter_all())
        return false;
    bool has_shards = shards_give_back(), has_any = arena_give_back();
    heap_leave();
    return has_shards || has_any;
}

static void add_if_used(const struct block *block, void *numbers)
{
    struct heap_numbers *sums = numbers;
    if (block->state == BLOCK_LIVE || block->state == BLOCK_UNRECORDED) {
        sums->live_bytes += size_of(block);
        sums->live_count++;
    }
}

struct heap_numbers heap_count(void)
{
    struct heap_numbers numbers = {0};
    bool is_entered = heap_enter_all();
    if (arena.bytes != NULL)
        numbers.system_bytes = (arena.committed + (uint64_t)(arena.big_top - FIRST_BIG) - heap.retired_units) * UNIT;
    heap_for_each(add_if_used, &numbers);
    if (is_entered)
        heap_leave();
    return numbers;
}
