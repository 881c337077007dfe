/* A list through the notes of held blocks, oldest first, and for each class one of free slots. */
#include "heap/quarantine.h"

#include "heap/heap.h"
#include "heap/paint.h"
#include "heap/placing.h"
#include "heap/shards.h"

struct block *quarantine_take_slot(unsigned number, uint32_t slot_size)
{
    struct class *class = &heap.classes[number];
    struct block *block = class->free;
    if (block != NULL) {
        class->free = block->next;
        return block;
    }
    if (class->slab == 0) {
        uint32_t unit = arena_take_run(1, true);
        if (unit == 0)
            return NULL;
        unit_write(unit, slab_of(slot_size));
        class->slab = unit;
    }
    struct unit *unit = &arena.units[class->slab];
    block = block_at(class->slab, unit->used);
    SET_NOTE(unit->used, unit->used + 1);
    if (unit->used == slots_of(unit))
        class->slab = 0;
    return block;
}

struct block *quarantine_take_run(size_t count)
{
    uint32_t first = count > FIRST_BIG ? 0 : arena_take_run((uint32_t)count, false);
    return first == 0 ? NULL : block_at(first, 0);
}

void quarantine_release(struct block *block)
{
    uint32_t unit = unit_of(block), slot_size;
    block_go(block, BLOCK_FREE);
    if (arena.units[unit].kind != UNIT_SLAB) {
        if (unit < FIRST_BIG)
            arena_give_run(unit, arena.units[unit].count);
        else
            arena_drop(unit, arena.units[unit].count); /* its addresses are handed out once */
        return;
    }
    struct class *class = &heap.classes[class_of(arena.units[unit].slot_size, &slot_size)];
    SET_NOTE(block->next, class->free);
    class->free = block;
}

void quarantine_release_oldest(void)
{
    struct block *block = heap.oldest;
    heap.oldest = block->next;
    if (heap.oldest == NULL)
        heap.newest = NULL;
    __builtin_prefetch(heap.oldest, 1); /* it was not looked at for long, and comes next */
    heap.held_bytes -= span_bytes(block->size);
    heap.held_count--;
    if (!heap.is_unpainted)
        paint_released((uintptr_t)block_start(block), block->size);
    quarantine_release(block);
}

void quarantine_release_down_to(uint64_t bound)
{
    while (heap.held_bytes > bound && heap.oldest != NULL)
        quarantine_release_oldest();
}

static void append(struct block *block)
{
    SET_NOTE(block->next, NULL);
    if (heap.newest != NULL)
        SET_NOTE(heap.newest->next, block);
    else
        heap.oldest = block;
    heap.newest = block;
    heap.held_count++;
}

void quarantine_hold(struct block *block)
{
    heap.held_bytes += span_bytes(block->size); /* a handler may jump out of the middle: then it is too much */
    atomic_signal_fence(memory_order_seq_cst);
    block_go(block, BLOCK_HELD);
    append(block);
    heap_release_down_to_bound();
}

void heap_release_down_to_bound(void)
{
    quarantine_release_down_to(atomic_load_explicit(&heap_bound, memory_order_relaxed));
}

static void hold_if_freed(uint32_t unit, uint32_t slot)
{
    struct block *block = block_at(unit, slot);
    if (block->state != BLOCK_HELD)
        return;
    heap.held_bytes += span_bytes(block->size);
    append(block);
}

void heap_order(void)
{
    if (heap_is_ordered())
        return;
    atomic_store(&heap.is_closed, true);
    atomic_store_explicit(&heap.is_ordered, true, memory_order_relaxed);
    shards_stop();
    for (uint32_t unit = 1; unit < arena.top; unit++) {
        struct unit *at = &arena.units[unit];
        if (at->kind != UNIT_SLAB || at->form == FORM_FORGOTTEN)
            continue;
        SET_NOTE(at->form, FORM_NONE);
        for (uint32_t slot = 0; slot < at->used; slot++)
            hold_if_freed(unit, slot);
    }
    heap_release_down_to_bound();
}
