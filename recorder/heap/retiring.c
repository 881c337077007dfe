/* A unit goes from closed to retired, given back and forgotten; or, if half of its slots were freed, to a list from
   which it is opened again. Regions count their units that are retired and forgotten. The lists, the counts of regions
   and the returned units are changed with central. `left` and `form` of a unit are atomic: its shard opens and closes
   it, and whoever frees its last block retires it, without central. Static functions run under central, except
   give_back, give_back_row, recycle and look_at, which take it, and sort, region_of and number_at. */
#define _GNU_SOURCE
#include "heap/retiring.h"

#include <sys/mman.h>

#include "base/system.h"
#include "libc/library.h"
#include "heap/central.h"
#include "heap/placing.h"
#include "shadow/shadow.h"
#include "shadow/unused.h"
#include "stream/side.h"

enum { PAGES = UNIT / PAGE };
/* The most bytes of notes that are kept of units without anything else. */
enum { MOST_KEPT_BYTES = 64 << 20 };

static uint32_t whole_pages(size_t bytes)
{
    return (uint32_t)((bytes + PAGE - 1) / PAGE * PAGE);
}

/* How many bytes of notes a unit has, in whole pages. A run has hardly any. Call sites count even before they are
   noted: so the amount subtracted for a unit is the one added for it. */
static uint32_t note_bytes(const struct unit *unit)
{
    if (unit->kind != UNIT_SLAB)
        return sizeof(struct block) + sizeof(struct call_sites);
    uint32_t slots = slots_of(unit);
    return whole_pages(slots * sizeof(struct block)) + whole_pages(slots * sizeof(struct call_sites));
}

/* Regions. */

/* Of each unit of a region the notes went back, or it has none. */
static void count_forgotten(uint32_t unit, uint32_t count)
{
    for (uint32_t region; count > 0; unit++, count--) {
        region = unit / REGION_UNITS;
        SET_NOTE(heap_forgotten[region], heap_forgotten[region] + 1);
        if (heap_forgotten[region] == REGION_UNITS)
            arena_forget_region(region);
    }
}

static void count_retired(uint32_t unit, uint32_t count)
{
    heap.retired_units += count;
    for (uint32_t region; count > 0; unit++, count--) {
        region = unit / REGION_UNITS;
        SET_NOTE(heap_retired[region], heap_retired[region] + 1);
        if (heap_retired[region] != REGION_UNITS)
            continue;
        arena_renew_region(region);
        if (!heap.is_unpainted)
            unused_show((uintptr_t)unit_start(region * REGION_UNITS));
    }
}

/* Notes. */

static uint32_t take_oldest(void)
{
    uint32_t unit = heap_kept[heap.first_kept];
    heap.first_kept = (heap.first_kept + 1) % MOST_KEPT;
    heap.kept_count--;
    return unit;
}

static bool is_kept(const struct unit *unit)
{
    return NOTE_NOW(unit->form) == FORM_BACK;
}

/* A unit taken back meanwhile has another form, which a shard may be changing; or it is there once more, and goes the
   sooner. */
static void forget_oldest(void)
{
    uint32_t number = take_oldest();
    struct unit *unit = &arena.units[number];
    if (!is_kept(unit))
        return;
    heap.kept_bytes -= note_bytes(unit);
    SET_NOTE(unit->form, FORM_FORGOTTEN);
    if (unit->kind == UNIT_SLAB)
        arena_forget(number);
    count_forgotten(number, units_at(number));
}

/* The notes on a unit stay, until they are the oldest and too many. */
static void keep(uint32_t unit)
{
    /* A handler may jump out of the middle: then the bytes are too many. */
    heap.kept_bytes += note_bytes(&arena.units[unit]);
    atomic_signal_fence(memory_order_seq_cst);
    heap_kept[(heap.first_kept + heap.kept_count) % MOST_KEPT] = unit;
    heap.kept_count++;
    SET_NOTE(arena.units[unit].form, FORM_BACK);
    while (heap.kept_count == MOST_KEPT || (heap.kept_bytes > MOST_KEPT_BYTES && heap.kept_count > 0))
        forget_oldest();
}

/* The oldest of these with this many units, or 0. A former run of a big block has notes on one slot of each unit
   alone, so no slab fits there. */
static uint32_t find_kept(uint32_t least, uint32_t most)
{
    bool is_big = (size_t)least * UNIT > BIG_BYTES;
    while (heap.kept_count > 0 && !is_kept(&arena.units[heap_kept[heap.first_kept]]))
        take_oldest();
    for (uint32_t i = 0; i < heap.kept_count; i++) {
        uint32_t number = heap_kept[(heap.first_kept + i) % MOST_KEPT];
        const struct unit *unit = &arena.units[number];
        if (is_kept(unit) && is_big == (number >= FIRST_BIG) && units_at(number) >= least && units_at(number) <= most)
            return number;
    }
    return 0;
}

/* After this many bytes of blocks' memory, big blocks' too. */
static void note_reuse(void)
{
    side_note_reuse(((uint64_t)arena.top + (arena.big_top - FIRST_BIG)) * UNIT);
}

void retiring_undo(uint32_t number)
{
    struct unit *unit = &arena.units[number];
    bool has_notes = is_kept(unit);
    uint32_t units = units_at(number);
    heap.kept_bytes -= has_notes ? note_bytes(unit) : 0;
    heap.retired_units -= units;
    for (uint32_t at = number; at < number + units; at++) {
        uint32_t region = at / REGION_UNITS;
        SET_NOTE(heap_retired[region], heap_retired[region] - 1);
        SET_NOTE(heap_forgotten[region], heap_forgotten[region] - !has_notes);
    }
    SET_NOTE(unit->form, FORM_NONE);
    if (has_notes && unit->kind == UNIT_SLAB)
        arena_forget(number);
    note_reuse();
}

/* The rest of a longer run is used no more. */
uint32_t retiring_take_back(uint32_t count, bool longer)
{
    uint32_t number = find_kept(count, count);
    if (number == 0 && longer)
        number = find_kept(count, UNITS);
    if (number != 0)
        retiring_undo(number);
    return number;
}

void retiring_leave(uint32_t unit, uint32_t count)
{
    count_retired(unit, count);
    count_forgotten(unit, count);
}

/* Giving back. */

static void set_dead(struct unit *unit, unsigned dead)
{
    if (dead != unit->dead)
        atomic_fetch_add_explicit(&heap.dead, dead - unit->dead, memory_order_relaxed);
    unit->dead = dead;
}

static struct listed *list_of(const struct unit *unit)
{
    uint32_t slot_size;
    return &heap.listed[class_of(unit->slot_size, &slot_size)];
}

/* Puts a unit behind those of its class that may be opened again. */
static void list(uint32_t number)
{
    struct unit *unit = &arena.units[number];
    struct listed *all = list_of(unit);
    arena_begin_change();
    unit->listed_before = all->last;
    unit->listed_next = 0;
    if (all->last != 0)
        arena.units[all->last].listed_next = number;
    else
        all->first = number;
    all->last = number;
    unit->is_listed = true;
    arena_end_change();
}

static void unlist(struct unit *unit)
{
    if (!unit->is_listed)
        return;
    struct listed *all = list_of(unit);
    arena_begin_change();
    unit->is_listed = false;
    if (unit->listed_before != 0)
        arena.units[unit->listed_before].listed_next = unit->listed_next;
    else
        all->first = unit->listed_next;
    if (unit->listed_next != 0)
        arena.units[unit->listed_next].listed_before = unit->listed_before;
    else
        all->last = unit->listed_before;
    arena_end_change();
}

/* Units in a row that have nothing. The process may have locked them: then they may be used again. */
static void give_back_row(uint32_t first, uint32_t count)
{
    bool is_back = arena_drop(first, count);
    if (is_back && !heap.is_unpainted)
        unused_show_again((uintptr_t)unit_start(first), (uint64_t)count * UNIT);
    central_take();
    for (uint32_t unit = first; unit < first + count; unit++) {
        unlist(&arena.units[unit]);
        set_dead(&arena.units[unit], is_back ? 0 : PAGES);
        if (is_back) {
            count_retired(unit, 1);
            keep(unit);
        } else {
            SET_NOTE(arena.units[unit].form, FORM_LISTED);
            list(unit);
        }
    }
    central_give();
}

static void sort(uint32_t *numbers, uint32_t count)
{
    for (uint32_t i = 1; i < count; i++)
        for (uint32_t at = i; at > 0 && numbers[at - 1] > numbers[at]; at--) {
            uint32_t before = numbers[at - 1];
            numbers[at - 1] = numbers[at];
            numbers[at] = before;
        }
}

/* Gives retired units back, each row of them by one call of the system. */
static void give_back(uint32_t *units, uint32_t count)
{
    sort(units, count);
    for (uint32_t i = 0, row; i < count; i += row) {
        for (row = 1; i + row < count && units[i + row] == units[i] + row; row++)
            ;
        give_back_row(units[i], row);
    }
}

void retiring_flush(struct shard *shard)
{
    uint32_t count = shard->retired_count;
    shard->retired_count = 0;
    give_back(shard->retired, count);
}

/* Nothing is recorded, so its memory may be used again. */
static void recycle(uint32_t unit, uint32_t count)
{
    if (unit >= FIRST_BIG) {
        arena_drop(unit, count);
        return;
    }
    central_take();
    unlist(&arena.units[unit]);
    set_dead(&arena.units[unit], 0);
    SET_NOTE(arena.units[unit].form, FORM_NONE);
    arena_give_run(unit, count);
    central_give();
}

void retire(struct shard *shard, uint32_t unit)
{
    if (heap.is_unpainted) {
        recycle(unit, 1);
        return;
    }
    SET_NOTE(arena.units[unit].form, FORM_RETIRED);
    if (shard == NULL) {
        give_back(&unit, 1);
        return;
    }
    if (shard->retired_count == MOST_RETIRED)
        retiring_flush(shard); /* a handler has jumped out before that was done */
    SET_NOTE(shard->retired[shard->retired_count], unit);
    atomic_signal_fence(memory_order_seq_cst);
    shard->retired_count++;
    if (shard->retired_count == MOST_RETIRED)
        retiring_flush(shard);
}

/* The shadow of a big one is its own, until all of a region is retired. */
static void poison_run(uint32_t first, uint32_t count)
{
    uintptr_t start = (uintptr_t)unit_start(first);
    uint64_t size = (uint64_t)count * UNIT;
    if (!heap.is_unpainted && !unused_show_again(start, size))
        shadow_poison(start, size, SHADE_USER);
}

void retire_run(uint32_t unit)
{
    uint32_t count = arena.units[unit].count;
    if (heap.is_unpainted) {
        recycle(unit, count);
        return;
    }
    bool is_back = arena_drop(unit, count);
    central_take();
    SET_NOTE(arena.units[unit].form, FORM_RETIRED);
    poison_run(unit, count);
    if (is_back) {
        count_retired(unit, count);
        keep(unit);
    }
    central_give();
}

/* Pages of units that have blocks. */

/* A bit for each page in which a slot lies that is not freed. */
static unsigned living_pages(uint32_t number)
{
    const struct unit *unit = &arena.units[number];
    unsigned living = 0;
    for (uint32_t slot = 0; slot < unit->used; slot++) {
        if (is_settled(block_at(number, slot)))
            continue;
        uint32_t from = unit->lead + slot * unit->slot_size, last = from + unit->slot_size - 1;
        living |= (2U << last / PAGE) - (1U << from / PAGE);
    }
    return living;
}

/* Gives these pages of a unit back, a bit for each, each row by one call of the system. */
static void give_back_pages(uint32_t number, unsigned pages)
{
    for (unsigned from = 0, count; from < PAGES; from += count) {
        count = 1;
        if ((pages >> from & 1) == 0)
            continue;
        while (from + count < PAGES && (pages >> (from + count) & 1) != 0)
            count++;
        if (system_madvise(unit_start(number) + (size_t)from * PAGE, (size_t)count * PAGE, MADV_DONTNEED) == 0)
            arena.units[number].given |= (uint16_t)(((1U << count) - 1) << from);
    }
}

/* The compilers' own would be a function of a library. */
static unsigned bits_in(unsigned set)
{
    unsigned count = 0;
    for (; set != 0; set &= set - 1)
        count++;
    return count;
}

/* The number of pages that hold freed blocks, if the remaining ones were contiguous. */
static unsigned dead_pages(const struct unit *unit, uint32_t left)
{
    uint64_t live = (uint64_t)left * unit->slot_size;
    unsigned there = PAGES - bits_in(unit->given), needed = (unsigned)((live + PAGE - 1) / PAGE);
    return there > needed ? there - needed : 0;
}

/* Pages in which nothing lives are given back, and if much of a unit is freed it is listed. The rest may become 0
   meanwhile, and the unit retired without central: that stays so, and not all of its pages count as dead. */
static void look_at(uint32_t number)
{
    struct unit *unit = &arena.units[number];
    uint32_t left = __atomic_load_n(&unit->left, __ATOMIC_RELAXED);
    if (left == 0 || left > slots_of(unit) / 2)
        return;
    central_take();
    uint8_t form = FORM_OLD;
    bool is_old = __atomic_compare_exchange_n(&unit->form, &form, FORM_LISTED, false, __ATOMIC_RELAXED,
                                              __ATOMIC_RELAXED);
    if (is_old)
        list(number);
    if (is_old || form == FORM_LISTED) {
        give_back_pages(number, ~living_pages(number) & ~(unsigned)unit->given & ((1U << PAGES) - 1));
        set_dead(unit, dead_pages(unit, left));
    }
    central_give();
}

void retiring_begin(uint32_t number)
{
    struct unit *unit = &arena.units[number];
    uint8_t closed = FORM_CLOSED;
    if (__atomic_compare_exchange_n(&unit->form, &closed, FORM_OLD, false, __ATOMIC_RELAXED, __ATOMIC_RELAXED))
        look_at(number);
}

void retiring_count(uint32_t number)
{
    const struct unit *unit = &arena.units[number];
    uint32_t left = __atomic_load_n(&unit->left, __ATOMIC_RELAXED);
    if (UNLIKELY((left & (left - 1)) == 0) && NOTE_NOW(unit->form) >= FORM_OLD)
        look_at(number);
}

/* Nobody retires it from now on: unless that is about to happen. What the process has locked was retired, and is
   not. */
static bool open_listed(struct unit *unit)
{
    uint32_t left = __atomic_load_n(&unit->left, __ATOMIC_RELAXED);
    while (left != 0 || unit->dead == PAGES)
        if (__atomic_compare_exchange_n(&unit->left, &left, left + 1, false, __ATOMIC_ACQ_REL, __ATOMIC_RELAXED))
            return true;
    return false;
}

uint32_t retiring_take_listed(unsigned class)
{
    uint32_t number;
    while ((number = heap.listed[class].first) != 0) {
        struct unit *unit = &arena.units[number];
        unlist(unit);
        if (NOTE_NOW(unit->form) != FORM_LISTED || !open_listed(unit))
            continue;
        SET_NOTE(unit->form, FORM_OPEN); /* from now on nobody looks at its pages */
        set_dead(unit, 0);
        unit->given = 0;
        note_reuse();
        return number;
    }
    return 0;
}

/* The region of an address that was handed out once; or REGIONS. */
static uint32_t region_of(uintptr_t address)
{
    if (!arena_is_found())
        return REGIONS;
    uintptr_t distance = address - (uintptr_t)arena.bytes;
    bool is_known = distance < (size_t)UNITS * UNIT && is_used((uint32_t)(distance / UNIT));
    return is_known ? (uint32_t)(distance / UNIT / REGION_UNITS) : REGIONS;
}

static uint32_t number_at(uintptr_t address)
{
    return (uint32_t)((address - (uintptr_t)arena.bytes) / UNIT);
}

bool retiring_has(uintptr_t address)
{
    uint32_t region = region_of(address);
    if (region == REGIONS)
        return false;
    uint32_t number = number_at(address);
    const struct unit *unit = &arena.units[number];
    uint32_t back = NOTE_NOW(unit->kind) == UNIT_RUN_BODY ? NOTE_NOW(unit->count) : 0;
    unit -= back < number ? back : 0; /* a count may be one from before */
    return NOTE_NOW(unit->form) >= FORM_RETIRED || NOTE_NOW(heap_retired[region]) == REGION_UNITS
           || is_headless(number);
}

size_t retiring_forgot(uintptr_t address)
{
    uint32_t region = region_of(address);
    if (region == REGIONS)
        return 0;
    if (NOTE_NOW(heap_forgotten[region]) == REGION_UNITS)
        return (size_t)REGION_UNITS * UNIT;
    const struct unit *unit = &arena.units[number_at(address)];
    bool is_new = NOTE_NOW(unit->kind) == UNIT_NEW && NOTE_NOW(unit->form) == FORM_FORGOTTEN;
    return is_new || is_headless(number_at(address)) ? UNIT : 0;
}
