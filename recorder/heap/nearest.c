/* The block that is nearest to a bad access, and the end of the one around an address: by the notes on blocks and
   units, which another thread may be changing, or which this thread was changing when a signal came. Each is copied
   once, field by field (unit_now, noted_now), so a copy may mix two states: its numbers are checked before they are
   used. A unit is asked for that has notes: others fault.

   Called: as arena.h says of its last three; of heap.h heap_poison_count by compiled code (interface/variables.c),
   which writes the shadow and may record (regions.h), heap_end_around by process/threads.c, and heap_start_around by
   that and the program (interface.c, by hooks.def). In any thread, also in a handler, with or without a lock: none is
   needed here. */
#include "heap/arena.h"
#include "heap/blocks.h"
#include "heap/heap.h"
#include "heap/paint.h"
#include "heap/retiring.h"
#include "shadow/shadow.h"
#include "stream/near.h"
#include "stream/record.h"
#include "stream/side.h"

/* This many slots are searched on either side: in between are free ones, and what has none is passed at once. */
enum { MOST_SLOTS = 1 << 12 };

/* A slot or a run, or a part of a unit that has none. */
struct slot {
    uintptr_t start, end;
    size_t block;            /* the number of its notes; 0 if there is none */
    uint32_t forgotten_size; /* of a slot that has none any more; or 0 */
    bool is_retired;         /* of a run that is freed for good */
};

static struct unit unit_now(uint32_t number)
{
    const struct unit *unit = &arena.units[number];
    struct unit now = {.kind = NOTE_NOW(unit->kind), .lead = NOTE_NOW(unit->lead), .count = NOTE_NOW(unit->count)};
    now.slot_size = NOTE_NOW(unit->slot_size);
    now.used = NOTE_NOW(unit->used);
    now.form = NOTE_NOW(unit->form);
    return now;
}

/* Of a block that was freed so long ago that its notes went back, only how many bytes it had at most. */
static struct block forgotten_in(uint32_t slot_size)
{
    struct block block = {.size = slot_size - 2 * REDZONE};
    block.state = BLOCK_HELD;
    block.offset = REDZONE / ALIGNMENT;
    return block;
}

static struct block noted_now(const struct slot *slot)
{
    const struct block *block = &arena.blocks[slot->block];
    struct block now = {.all_bits = __atomic_load_n(&block->all_bits, __ATOMIC_ACQUIRE)};
    now.size = NOTE_NOW(block->size);
    now.large_size = __atomic_load_n(&block->large_size, __ATOMIC_ACQUIRE);
    return now;
}

static bool is_forgotten(const struct slot *slot, const struct block *noted)
{
    return slot->forgotten_size != 0 && noted->state == BLOCK_FREE;
}

static struct block block_now(const struct slot *slot)
{
    struct block noted = noted_now(slot);
    return is_forgotten(slot, &noted) ? forgotten_in(slot->forgotten_size) : noted;
}

static struct call_sites call_sites_now(size_t number)
{
    const struct call_sites *all = __atomic_load_n(&arena.call_sites, __ATOMIC_ACQUIRE);
    if (all == NULL)
        return (struct call_sites){0, 0};
    return (struct call_sites){NOTE_NOW(all[number].allocated), NOTE_NOW(all[number].freed)};
}

/* The slot of a slab that has an address, or the part of its unit that has none. */
static void find_in_slab(uint32_t number, const struct unit *unit, uintptr_t address, struct slot *slot)
{
    uintptr_t start = (uintptr_t)unit_start(number) + unit->lead, end = (uintptr_t)unit_start(number) + UNIT;
    if (unit->slot_size < MIN_SLOT_SIZE || unit->slot_size > UNIT)
        return;
    if (address < start) {
        slot->end = start; /* the bytes before the first slot */
        return;
    }
    uint32_t index = (uint32_t)(address - start) / unit->slot_size;
    bool is_used = index < unit->used;
    slot->start = start + (size_t)(is_used ? index : unit->used) * unit->slot_size;
    if (!is_used || end - slot->start < unit->slot_size)
        return; /* the rest of a unit, in which there is no slot yet */
    slot->end = slot->start + unit->slot_size;
    slot->block = block_number(number, index);
    slot->forgotten_size = unit->form == FORM_FORGOTTEN ? unit->slot_size : 0;
}

/* Units in a row that are free, by the notes on the first and on the last of them. Between these may stand older notes:
   on runs that have become a part of this one, so that what they say is as free, unless a part of one was taken. */
static void find_free(uint32_t number, const struct unit *unit, struct slot *slot)
{
    if (unit->kind == UNIT_FREE && unit->count <= UNITS - number)
        slot->end = slot->start + (size_t)unit->count * UNIT;
    if (unit->kind == UNIT_FREE_END && unit->count < number) {
        struct unit first = unit_now(number - unit->count);
        if (first.kind == UNIT_FREE && first.count == unit->count + 1)
            slot->start -= (size_t)unit->count * UNIT;
    }
}

/* The slot or run that has an address, or the unused part. False: it is not the allocator's memory. */
static bool find_slot(uintptr_t address, struct slot *slot)
{
    if (!arena_is_found())
        return false;
    uintptr_t distance = address - (uintptr_t)arena.bytes;
    if (distance >= (size_t)UNITS * UNIT)
        return false;
    uint32_t number = (uint32_t)(distance / UNIT), first = number, top = NOTE_NOW(arena.top);
    uint32_t big_top = NOTE_NOW(arena.big_top), end = number < FIRST_BIG ? FIRST_BIG : UNITS;
    if (number >= (number < FIRST_BIG ? top : big_top)) {
        uint32_t from = number < FIRST_BIG ? top : big_top;
        *slot = (struct slot){.start = (uintptr_t)unit_start(from), .end = (uintptr_t)unit_start(end)};
        return true;
    }
    struct unit unit = unit_now(number);
    *slot = (struct slot){.start = (uintptr_t)unit_start(number), .end = (uintptr_t)unit_start(number) + UNIT};
    find_free(number, &unit, slot);
    if (unit.kind == UNIT_SLAB)
        find_in_slab(number, &unit, address, slot);
    if (unit.kind == UNIT_RUN_BODY && unit.count < number)
        unit = unit_now(first = number - unit.count);
    if (unit.kind == UNIT_RUN && unit.count > number - first && unit.count <= UNITS - first) {
        slot->start = (uintptr_t)unit_start(first);
        slot->end = slot->start + (size_t)unit.count * UNIT;
        slot->block = block_number(first, 0);
        slot->is_retired = unit.form >= FORM_RETIRED;
    }
    return true;
}

/* Whether a block was there that was not recorded, and is freed: its notes have its size. */
static bool is_freed_unrecorded(const struct slot *slot, const struct block *noted)
{
    return slot->is_retired && noted->state == BLOCK_FREE && noted->large_size > UINT32_MAX;
}

bool arena_has_freed_unrecorded(uintptr_t address)
{
    struct slot slot;
    if (!find_slot(address, &slot) || slot.block == 0)
        return false;
    struct block noted = noted_now(&slot);
    return is_freed_unrecorded(&slot, &noted);
}

static uint64_t distance_of(uintptr_t address, uintptr_t start, uint64_t size)
{
    if (address < start)
        return start - address;
    return address - start < size ? 0 : address - start - size + 1;
}

/* Whether a block is in this slot. It is the nearest if it is nearer than those so far; of two that are as near it is
   the one before the address. */
static bool look_at(const struct slot *slot, uintptr_t address, uint64_t *least, struct nearest *found)
{
    if (slot->block == 0)
        return false;
    struct block noted = noted_now(slot);
    bool is_gone = is_forgotten(slot, &noted), is_freed = is_freed_unrecorded(slot, &noted);
    struct block block = is_gone ? forgotten_in(slot->forgotten_size) : noted;
    uintptr_t start = block_address(&block, slot->start);
    uint64_t size = block.state == BLOCK_UNRECORDED || is_freed ? block.large_size : block.size;
    uint64_t far = distance_of(address, start, size);
    if (block.state == BLOCK_FREE && !is_freed)
        return false;
    if (far < *least || (far == *least && start < found->start)) {
        *least = far;
        *found = (struct nearest){.start = start,
                                  .size = size,
                                  .call_sites = call_sites_now(slot->block),
                                  .family = (enum family)block.family,
                                  .is_forgotten = is_gone};
    }
    return true;
}

bool arena_find_nearest(uintptr_t address, struct nearest *found)
{
    struct slot here, slot;
    uint64_t least = UINT64_MAX;
    *found = (struct nearest){.is_forgotten = retiring_forgot(address) != 0};
    if (found->is_forgotten || !find_slot(address, &here))
        return found->is_forgotten;
    look_at(&here, address, &least, found);
    uintptr_t last = here.start - 1, next = here.end;
    for (int i = 0; i < MOST_SLOTS && address - last <= least && find_slot(last, &slot); i++, last = slot.start - 1)
        if (look_at(&slot, address, &least, found))
            break;
    for (int i = 0; i < MOST_SLOTS && next - address <= least && find_slot(next, &slot); i++, next = slot.end)
        if (look_at(&slot, address, &least, found))
            break;
    return found->start != 0;
}

bool arena_find_around(uintptr_t address, struct block *block, uintptr_t *start)
{
    struct slot slot;
    if (!find_slot(address, &slot) || slot.block == 0)
        return false;
    *block = block_now(&slot);
    *start = block_address(block, slot.start);
    return block->state != BLOCK_FREE;
}

unsigned char heap_shade_of(uint64_t granule, unsigned char shade)
{
    struct block block;
    uintptr_t start;
    if (shade != SHADE_USER)
        return shade;
    if (!arena_find_around(granule, &block, &start))
        return SHADE_HEAP;
    unsigned char left = shade_of_block(start, block.size, block.state == BLOCK_HELD, granule);
    return addressable_of(left) == 0 ? left : shade;
}

/* Clang has the count before the elements, which begin at a multiple of their alignment. Elsewhere it may be a part of
   what an operator new of the program hands out, and again without a word. */
void heap_poison_count(uintptr_t address)
{
    struct slot slot;
    if (heap.is_unpainted || !find_slot(address, &slot) || slot.block == 0)
        return;
    struct block block = block_now(&slot);
    uintptr_t before = address - block_address(&block, slot.start) + GRANULE;
    if (address % GRANULE != 0 || before == 0 || (before & (before - 1)) != 0)
        return;
    shadow_poison(address, GRANULE, SHADE_COOKIE);
    if (is_lean())
        side_note_left_good();
    else
        record_poison(KIND_USER, address, GRANULE);
}

/* The live block in whose slot an address is. */
static bool live_near(uintptr_t address, uintptr_t *start, uintptr_t *end)
{
    struct slot slot;
    if (!find_slot(address, &slot) || slot.block == 0)
        return false;
    struct block block = block_now(&slot);
    *start = block_address(&block, slot.start);
    *end = *start + (block.state == BLOCK_LIVE ? block.size : block.large_size);
    return block.state == BLOCK_LIVE || block.state == BLOCK_UNRECORDED;
}

uintptr_t heap_end_around(uintptr_t address)
{
    uintptr_t start, end;
    return live_near(address, &start, &end) && end > address ? end : address;
}

uintptr_t heap_start_around(uintptr_t address)
{
    uintptr_t start, end;
    bool is_inside = live_near(address, &start, &end) && address >= start && (address < end || address == start);
    return is_inside ? start : 0;
}
